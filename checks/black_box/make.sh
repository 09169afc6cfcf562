# Made streams.

# The digests are those of streams that a program made which shares nothing with dtx.
while read -r seed count digest; do
    start "the made stream of $count packets of seed $seed"
    run 0 "packets $count" make "$seed" "$count" out.ts
    [[ $(sha256sum <out.ts) == "$digest  -" ]] || wrong 'out.ts is another stream'
    leaves out.ts
    cp out.ts "$room/made.ts"
done <<'end'
1 1300 cda8fc43cfe9b8d76216fc72b8ac89ff9d77dc56d5bf49b8ca47f300b43cf6c0
18446744073709551615 5000 990fc564d0c6c657d2b689ebaa1d67b88f0995854a5379277273b772db160d7d
1 31200 14055ecf3f9dc65ffe7d16262e14256a2a9c603dffe27f0738c0ab7ce96c29a3
end

start 'the first made packet of seed 0'
run 0 'packets 1' make 0 1 out.ts
[[ $(od -An -tx1 -N 8 out.ts) == ' 47 00 31 10 7c 25 96 d0' && $(od -An -tx1 -j 187 out.ts) == ' 00' ]] || wrong 'it is another packet'

start 'a made stream of no packets'
run 0 'packets 0' make 0 0 out.ts
[[ -f out.ts && ! -s out.ts ]] || wrong 'out.ts is not empty'
leaves out.ts

start 'a made stream replaces an existing longer output'
cp "$room/made.ts" out.ts
run 0 'packets 9' make 1 9 out.ts
head -c $((9 * 188)) "$room/made.ts" | cmp -s - out.ts || wrong 'out.ts is not the first nine packets'
leaves out.ts

# Coded streams.

# The digests are those of symbols that a program coded which shares nothing with dtx.
while read -r seed count segments digest; do
    start "the symbols of the made stream of $count packets of seed $seed"
    run 0 "packets $count" make "$seed" "$count" in.ts
    run 0 "packets $count segments $segments loose 0" code in.ts out.sym
    [[ $(sha256sum <out.sym) == "$digest  -" ]] || wrong 'out.sym holds other symbols'
    leaves in.ts out.sym
    cp out.sym "$room/made.sym"
done <<'end'
1 1300 1305 605f1f92ebd5e248b8d6013a935415e1f5bace67aa8dd278c44af7d6df477d61
18446744073709551615 5000 5017 0a0945e062855f194332dfdd264747f6f99761ca9fdf42ce37b720d12a9a3ea9
1 31200 31300 2207f66be9154efbe7d00c916b9caeaac31b62986eb432473301e2ac116c54f4
end

# coded_front PACKETS: out.sym holds the symbols of that many packets of the long stream, and no more.
"$dtx" code "$inputs/long.ts" "$room/long.sym" >"$room/said"
coded_front() {
    local groups=$(($1 / 4))
    head -c $(((groups * 4 + (groups + 77) / 78) * 832)) "$room/long.sym" | cmp -s - out.sym ||
        wrong "out.sym does not hold the symbols of $1 packets"
}

# The counts are small ones, and those round a group, a batch, a piece that is read at once, and a field.
while read -r packets segments loose; do
    start "the symbols of $packets packets and $loose loose bytes"
    given "$packets" "$loose"
    run 0 "packets $packets segments $segments loose $loose" code ../inputs/given.ts out.sym
    coded_front "$packets"
    leaves out.sym
done <<'end'
0 0 0
0 0 187
1 0 0
3 0 5
4 5 0
7 5 1
8 9 0
51 49 0
52 53 0
55 53 3
56 57 0
207 205 0
208 209 0
209 209 1
212 213 0
312 313 0
315 313 0
316 318 0
347 346 0
348 350 0
349 350 0
624 626 0
628 631 3
end

start 'a feed has the symbols of its stream'
given 1300 0
run 0 'packets 1300 filled 0 loose 0' adapt "$plan" ../inputs/given.ts feed.ts
run 0 'packets 1300 segments 1305 loose 0' code feed.ts out.sym
coded_front 1300
leaves feed.ts out.sym

start 'zeros are a field sync, and then the lowest symbol'
"$top/checks/independent/reference.py" zeros 4 in.ts
run 0 'packets 4 segments 5 loose 0' code in.ts out.sym
for ((segment = 0; segment < 4; segment++)); do
    printf '\x05\xfb\xfb\x05'
    head -c 828 /dev/zero | tr '\0' '\371'
done >wanted.sym
head -c 832 "$room/made.sym" | cat - wanted.sym | cmp -s - out.sym || wrong 'out.sym has another symbol'

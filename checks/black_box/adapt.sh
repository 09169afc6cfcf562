# Streams that are adapted.

# The counts are small ones, and those round a piece that is read or written at once.
while read -r packets loose; do
    start "$packets packets and $loose loose bytes"
    given "$packets" "$loose"
    run 0 "packets $packets filled 0 loose $loose" adapt "$plan" ../inputs/given.ts out.ts
    holds out.ts "$packets"
    leaves out.ts
done <<'end'
0 0
0 1
0 187
1 0
1 5
1 187
4 0
347 3
348 0
349 187
625 0
1391 9
1392 0
1393 0
1394 72
1395 0
2788 0
3000 0
end

start 'of 625 packets just bytes 0 of packets 0 and 624 change, from 47 to B8'
given 625 0
run 0 'packets 625 filled 0 loose 0' adapt "$plan" ../inputs/given.ts out.ts
are_marked ../inputs/given.ts out.ts 0 624

start 'an existing longer output is replaced'
given 3 5
cp ../inputs/long.ts out.ts
run 0 'packets 3 filled 0 loose 5' adapt "$plan" ../inputs/given.ts out.ts
holds out.ts 3
leaves out.ts

start 'the example plan and the example stream'
"$top/examples/make_stream.sh" 1300 in.ts
run 0 'packets 1300 filled 0 loose 0' adapt "$top/examples/two-sites.toml" in.ts out.ts
are_marked in.ts out.ts 0 624 1248

start 'packets of PIDs that differ in one bit from that of a placeholder'
given 15 0
for ((bit = 0; bit < 13; bit++)); do
    spoil $((bit + 1)) 47 "$(printf '%x' $((16#$placeholder ^ 1 << bit)))"
done
run 0 'packets 15 filled 0 loose 0' adapt "$plan" ../inputs/given.ts out.ts
are_marked ../inputs/given.ts out.ts 0

# ---- Feeds with operations packets ----

# The digests are those of feeds that a program made which shares nothing with dtx.
while read -r count filled digest; do
    start "the feed of the made stream of $count packets"
    run 0 "packets $count" make 1 "$count" in.ts
    run 0 "packets $count filled $filled loose 0" adapt "$plan" in.ts out.ts
    has_digest out.ts "$digest"
    leaves in.ts out.ts
done <<'end'
1300 4 a97707ad9c5b771bb9510c7c1bd833cdc4cc941066286ea2722af15bdf507f12
31200 100 c61a98338e4e2df886e921f7a69644c65dd8e6f8813a01598f7e674fa0510ae8
end

# A placeholder is told by its PID alone, wherever it stands in a group, and in a last group that isn't whole too.
while read -r packets spoils filled; do
    start "$packets packets with placeholders $spoils"
    given "$packets" 0
    spoil_all "$spoils"
    "$top/checks/independent/reference.py" feed ../inputs/given.ts wanted.ts
    run 0 "packets $packets filled $filled loose 0" adapt "$plan" ../inputs/given.ts out.ts
    cmp -s wanted.ts out.ts || wrong 'out.ts is another feed'
done <<'end'
1 0:47:1ffa 1
3 2:47:3ffa 1
3 2:47:5ffa 1
3 2:47:9ffa 1
4 0:47:1ffa,1:47:1ffa,2:47:1ffa,3:47:1ffa 4
9 4:47:1ffa,8:47:1ffa 2
60 48:47:1ffa,52:47:1ffa 2
625 624:47:1ffa 1
640 4:47:1ffa,311:47:1ffa,312:47:1ffa,623:47:1ffa,639:47:1ffa 5
end

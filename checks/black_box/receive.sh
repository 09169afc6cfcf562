# Received symbols.

start 'the packets of the symbols of a made stream'
run 0 'packets 5000' make 18446744073709551615 5000 in.ts
run 0 'packets 5000 segments 5017 loose 0' code in.ts in.sym
run 0 'segments 5017 runs 1 packets 4948 fixed 0 flagged 0 loose 0' receive in.sym out.ts
has_digest out.ts 8dcda0e80bbe6e7a305614566d69ce0c5209983cd2fb7d7819353a76804d7323
leaves in.ts in.sym out.ts

# Feeds with operations packets, which a program of its own makes.
start 'the packets of the symbols of a feed'
run 0 'packets 1300' make 1 1300 in.ts
"$top/checks/independent/reference.py" feed in.ts feed.ts
has_digest feed.ts a97707ad9c5b771bb9510c7c1bd833cdc4cc941066286ea2722af15bdf507f12
run 0 'packets 1300 segments 1305 loose 0' code feed.ts feed.sym
has_digest feed.sym 6c253b73c974cb029a62103218b92bb240df240b99b248cf48f20d82eaceeee7
run 0 'segments 1305 runs 1 packets 1249 fixed 0 flagged 0 loose 0' receive feed.sym out.ts
has_digest out.ts c2621661d1fdb70783b472c351877cd188c28b896a075193a0b2c6f8fa310663
cp feed.sym "$room/feed.sym"
cp out.ts "$room/received.ts"
cp feed.ts "$room/feed.ts"
tail -c 1001728 feed.sym >"$room/from_order.sym"

start 'the packets of symbols that begin in the middle of a field'
has_digest "$room/from_order.sym" d053d41c45f273e3e262b297d5fa7c7df44adbfb998e9210481653691e0f1178
run 0 'segments 1204 runs 1 packets 937 fixed 0 flagged 0 loose 0' receive "$room/from_order.sym" out.ts
has_digest out.ts 25bcdec4408a72dc0fc771a6f9f4864b5bece438a7f254858a62c49148eb8056
leaves out.ts

start 'cut symbols give the first packets'
head -c $((700 * 832 + 100)) "$room/feed.sym" >in.sym
run 0 'segments 700 runs 1 packets 644 fixed 0 flagged 0 loose 100' receive in.sym out.ts
head -c $((644 * 188)) "$room/received.ts" | cmp -s - out.ts || wrong 'out.ts is not the first 644 packets'

while read -r segments packets; do
    start "the first $segments segments of a feed"
    head -c $((segments * 832)) "$room/feed.sym" >in.sym
    run 0 "segments $segments runs 1 packets $packets fixed 0 flagged 0 loose 0" receive in.sym out.ts
    head -c $((packets * 188)) "$room/received.ts" | cmp -s - out.ts || wrong "out.ts is not the first $packets packets"
done <<'end'
49 0
52 0
53 1
56 1
57 4
105 53
108 53
319 264
end

# Behind field syncs stands noise, which no codeword is near.
while read -r segments packets; do
    start "$segments segments of noise"
    "$top/checks/independent/noise.py" "$segments" in.sym
    "$top/checks/independent/receiver.py" in.sym wanted.ts >"$room/line"
    run 0 "segments $segments runs 1 packets $packets fixed 0 flagged $packets loose 0" receive in.sym out.ts
    [[ $(cat "$room/line") == "$(cat "$room/said")" ]] || wrong "the other program printed $(cat "$room/line")"
    cmp -s wanted.ts out.ts || wrong 'out.ts has other packets'
done <<'end'
53 1
57 4
105 53
108 53
319 264
end

start 'symbols twice in a row: the first run ends in the second copy, and the next one begins with its second field sync'
cat "$room/feed.sym" "$room/feed.sym" >in.sym
"$dtx" receive in.sym out.ts >"$room/said" 2>"$room/complaint"
ended 0 $?
[[ $(cat "$room/said") == 'segments 2610 runs 2 packets 2446 '* ]] || wrong "printed $(cat "$room/said")"
head -c $((1249 * 188)) out.ts | cmp -s - "$room/received.ts" || wrong 'the first packets are not those of one copy'
tail -c $((937 * 188)) out.ts >last.ts
has_digest last.ts 25bcdec4408a72dc0fc771a6f9f4864b5bece438a7f254858a62c49148eb8056

start 'symbols without their first field sync'
tail -c +833 "$room/feed.sym" >in.sym
run 0 'segments 1304 runs 1 packets 937 fixed 0 flagged 0 loose 0' receive in.sym out.ts
has_digest out.ts 25bcdec4408a72dc0fc771a6f9f4864b5bece438a7f254858a62c49148eb8056

start 'random lists of segments, cut and spliced'
"$top/checks/independent/splices.py" "$dtx" 20 >"$room/said" || wrong "$(grep FAILED "$room/said" | head -n 3)"

start 'twelve wrong symbols are put right'
cp "$room/from_order.sym" in.sym
printf '\x7f%.0s' {1..12} | dd of=in.sym bs=1 seek=300000 conv=notrunc status=none
run 0 'segments 1204 runs 1 packets 937 fixed 9 flagged 0 loose 0' receive in.sym out.ts
has_digest out.ts 25bcdec4408a72dc0fc771a6f9f4864b5bece438a7f254858a62c49148eb8056

# puts_lost_segments_right COMMAND: two segments of a stream, all of whose symbols are other ones, cost no packet.
puts_lost_segments_right() {
    start "two lost segments are put right by \`$1\`"
    "$top/checks/independent/reference.py" zeros 624 in.ts
    run 0 'packets 624 segments 626 loose 0' code in.ts in.sym
    head -c 1664 /dev/zero | tr '\0' '\177' | dd of=in.sym bs=1 seek=167232 conv=notrunc status=none
    run 0 'segments 626 runs 1 packets 573 fixed 420 flagged 0 loose 0' "$1" in.sym out.ts
    head -c $((573 * 188)) in.ts | cmp -s - out.ts || wrong 'out.ts is not the first 573 packets'
}

puts_lost_segments_right receive

start 'a long stream of feed symbols'
run 0 'packets 31200' make 1 31200 in.ts
"$top/checks/independent/reference.py" feed in.ts feed.ts
has_digest feed.ts c61a98338e4e2df886e921f7a69644c65dd8e6f8813a01598f7e674fa0510ae8
run 0 'packets 31200 segments 31300 loose 0' code feed.ts feed.sym
has_digest feed.sym 69c8e8b7a6334869a125443672950cb78db8d8c1d234af7b312718eb2eaee26a
run 0 'segments 31300 runs 1 packets 31149 fixed 0 flagged 0 loose 0' receive feed.sym out.ts
has_digest out.ts 1462ff92a181c7bcd927bc2e2055e2957710b1d67193e3c5392ede95959ea032

# Of how many packets how many come back: as many as have all of their bytes in the symbols.
while read -r packets segments back loose; do
    start "the symbols of $packets packets and $loose loose bytes"
    run 0 "packets $packets" make 1 "$packets" in.ts
    run 0 "packets $packets segments $segments loose 0" code in.ts in.sym
    head -c "$loose" /dev/zero >>in.sym
    run 0 "segments $segments runs 1 packets $back fixed 0 flagged 0 loose $loose" receive in.sym out.ts
    head -c $((back * 188)) in.ts | cmp -s - out.ts || wrong "out.ts is not the first $back packets"
done <<'end'
4 5 0 0
48 49 0 0
52 53 1 0
56 57 4 0
56 57 4 1
56 57 4 831
312 313 261 0
624 626 573 0
end

# Symbols in which no run begins: nothing, less than a segment, a segment of data, and what isn't symbols.
while read -r shows from count; do
    start "no field sync: $shows"
    tail -c +$((from + 1)) "$room/feed.sym" | head -c "$count" >in.sym
    run 10 'no sync' receive in.sym out.ts
    [[ -f out.ts && ! -s out.ts ]] || wrong 'out.ts is not empty'
    leaves in.sym out.ts
done <<'end'
nothing 0 0
less_than_a_segment 0 831
a_segment_of_data 832 832
the_data_of_a_field 832 259584
end
start 'no field sync: a transport stream'
run 10 'no sync' receive ../inputs/long.ts out.ts
[[ -f out.ts && ! -s out.ts ]] || wrong 'out.ts is not empty'

start 'a field sync alone'
head -c 832 "$room/feed.sym" >in.sym
run 0 'segments 1 runs 1 packets 0 fixed 0 flagged 0 loose 0' receive in.sym out.ts
[[ -f out.ts && ! -s out.ts ]] || wrong 'out.ts is not empty'

start 'a run ends where a sync is due, and the next one begins with the next sync'
head -c $((313 * 832)) "$room/feed.sym" >in.sym
head -c 832 /dev/zero >>in.sym
head -c $((313 * 832)) "$room/feed.sym" >>in.sym
run 0 'segments 627 runs 2 packets 522 fixed 0 flagged 0 loose 0' receive in.sym out.ts

start 'packets that cannot be corrected are flagged and kept'
cp "$room/feed.sym" in.sym
head -c 33280 /dev/zero | dd of=in.sym bs=832 seek=400 conv=notrunc status=none
"$dtx" receive in.sym out.ts >"$room/said" 2>"$room/complaint"
ended 0 $?
[[ $(cat "$room/said") =~ ^segments\ 1305\ runs\ 1\ packets\ 1249\ fixed\ [0-9]+\ flagged\ [1-9][0-9]*\ loose\ 0$ ]] ||
    wrong "printed $(cat "$room/said")"
[[ $(stat -c %s out.ts) == $((1249 * 188)) ]] || wrong 'out.ts has not 1249 packets'

start 'received packets replace an existing longer output'
head -c $((57 * 832)) "$room/feed.sym" >in.sym
cp ../inputs/long.ts out.ts
run 0 'segments 57 runs 1 packets 4 fixed 0 flagged 0 loose 0' receive in.sym out.ts
[[ $(stat -c %s out.ts) == $((4 * 188)) ]] || wrong 'out.ts has not 4 packets'

start 'symbols replace an existing longer output'
given 4 0
cp ../inputs/long.ts out.sym
run 0 'packets 4 segments 5 loose 0' code ../inputs/given.ts out.sym
coded_front 4
leaves out.sym

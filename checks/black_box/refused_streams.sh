# Streams that are refused.

# Each packet that is replaced is told by INDEX:SYNC:PID. Of `packet K` just the whole groups of four before
# packet K stand.
while read -r packets spoils line; do
    start "$packets packets, spoiled by $spoils: $line"
    given "$packets" 0
    spoil_all "$spoils"
    run 6 "$line" adapt "$plan" ../inputs/given.ts out.ts
    refused=${line#packet }
    holds out.ts $((refused / 4 * 4))
    leaves out.ts
done <<'end'
9 3:48:31,5:47:1ffa packet 3
9 7:48:31,6:47:1ffa packet 7
2 1:48:31 packet 1
1 0:48:31 packet 0
1 0:b8:31 packet 0
1 0:00:31 packet 0
3 1:48:1ffa packet 1
3 1:b8:1ffa packet 1
9 5:48:31 packet 5
9 8:46:31 packet 8
9 7:48:31 packet 7
9 4:48:31,6:48:31 packet 4
625 624:b8:31 packet 624
3000 347:48:31 packet 347
3000 348:48:31 packet 348
3000 1391:48:31 packet 1391
3000 1392:48:31 packet 1392
3000 1393:48:31 packet 1393
3000 1394:48:31 packet 1394
3000 1401:48:31 packet 1401
3000 2999:48:31 packet 2999
end

start 'a refused packet replaces an older output'
given 9 0
spoil 5 48 31
cp ../inputs/long.ts out.ts
run 6 'packet 5' adapt "$plan" ../inputs/given.ts out.ts
holds out.ts 4

# Of `code` byte 0 alone is judged, and the mark is allowed anywhere.
while read -r packets spoils line; do
    start "symbols of $packets packets, spoiled by $spoils: $line"
    given "$packets" 0
    spoil_all "$spoils"
    run 6 "$line" code ../inputs/given.ts out.sym
    refused=${line#packet }
    coded_front $((refused / 4 * 4))
    leaves out.sym
done <<'end'
1 0:48:31 packet 0
3 1:46:31 packet 1
9 5:48:31 packet 5
9 5:b8:31,8:b9:31 packet 8
9 1:b8:31,4:48:31,6:48:31 packet 4
9 7:00:1ffa packet 7
625 624:48:31 packet 624
3000 348:48:31 packet 348
3000 1393:48:31 packet 1393
3000 2999:48:31 packet 2999
end

start 'symbols of marks and of a placeholder'
given 9 0
spoil 1 b8 31
spoil 8 47 1ffa
run 0 'packets 9 segments 9 loose 0' code ../inputs/given.ts out.sym
coded_front 9
leaves out.sym

start 'what stands before a refused packet is the feed of its groups, placeholders filled'
run 0 'packets 700' make 1 700 in.ts
run 0 'packets 700 filled 2 loose 0' adapt "$plan" in.ts whole.ts
printf '\x48' | dd of=in.ts bs=1 seek=$((415 * 188)) conv=notrunc status=none
run 6 'packet 415' adapt "$plan" in.ts out.ts
head -c $((412 * 188)) whole.ts | cmp -s - out.ts || wrong 'out.ts is not the feed of the first 412 packets'

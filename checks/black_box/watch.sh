# What is told of a feed. The numbers and lines are those of a program that shares nothing with dtx.

start 'a feed is sound'
run 0 'packets 1300 ops 4 slips 0 jumps 0 unread 0 stray 0 loose 0' watch "$room/feed.ts" out.txt
printf '%s\n' 'lock 0' 'ops 100 0 100 0 5000000 2 first first' 'ops 412 0 412 0 5000000 2 right right' \
    'ops 724 1 100 483943 5000000 2 right right' 'ops 1036 1 412 483943 5000000 2 right right' | cmp -s - out.txt ||
    wrong "out.txt has '$(tr '\n' ';' <out.txt)'"
leaves out.txt

start 'a feed is sound from its second mark on'
tail -c +$((624 * 188 + 1)) "$room/feed.ts" >in.ts
run 0 'packets 676 ops 2 slips 0 jumps 0 unread 0 stray 0 loose 0' watch in.ts out.txt

# change INDEX COUNT: so many bytes of that packet of in.ts are other ones.
change() {
    head -c "$2" /dev/zero | tr '\0' '\125' | dd of=in.ts bs=1 seek=$(($1 * 188 + 20)) conv=notrunc status=none
}

# A byte of another packet is in the coders, so the next states aren't theirs; from there on they are again.
while read -r packet count line first second third fourth; do
    start "$count bytes of packet $packet of a feed are changed"
    cp "$room/feed.ts" in.ts
    change "$packet" "$count"
    cmp -s "$room/feed.ts" in.ts && wrong 'nothing was changed'
    run 0 "packets 1300 ${line//_/ } loose 0" watch in.ts out.txt
    [[ $(grep ops out.txt | cut -d ' ' -f 8 | tr '\n' ' ') == "$first $second $third ${fourth:+$fourth }" ]] ||
        wrong "out.txt has '$(tr '\n' ';' <out.txt)'"
done <<'end'
500 1 ops_4_slips_1_jumps_0_unread_0_stray_0 first right slip right
100 10 ops_4_slips_1_jumps_0_unread_0_stray_0 first slip right right
100 11 ops_3_slips_0_jumps_0_unread_1_stray_0 first right right
end

start 'a packet is missing'
head -c $((700 * 188)) "$room/feed.ts" >in.ts
tail -c +$((701 * 188 + 1)) "$room/feed.ts" >>in.ts
agrees watch in.ts out.txt
grep -q '^stray 723 1 100$' out.txt || wrong "out.txt has '$(tr '\n' ';' <out.txt)'"

start 'packets that are no feed, and none'
run 0 'packets 3000 ops 0 slips 0 jumps 0 unread 0 stray 0 loose 0' watch ../inputs/long.ts out.txt
[[ -f out.txt && ! -s out.txt ]] || wrong 'out.txt is not empty'
: >in.ts
run 0 'packets 0 ops 0 slips 0 jumps 0 unread 0 stray 0 loose 0' watch in.ts out.txt

start 'random lists of packets'
"$top/checks/independent/watch.py" "$dtx" 60 >"$room/said" || wrong "$(grep FAILED "$room/said" | head -n 3)"

refuses_files watch

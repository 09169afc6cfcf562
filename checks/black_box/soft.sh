# Symbols that become those of the least paths. What OUT must be is written here, or by a program that shares nothing with dtx.

start 'undamaged symbols are their own least paths'
run 0 'segments 1305 fields 5 cost 0 loose 0' soft "$room/feed.sym" out.sym
cmp -s "$room/feed.sym" out.sym || wrong 'out.sym has other symbols'
leaves out.sym

# It was -7 and is -4, which lies between -5 and -3; slicing makes -3 of it.
start 'a symbol that is nearer to other levels comes back by those beside it'
"$top/checks/independent/reference.py" zeros 56 in.ts
run 0 'packets 56 segments 57 loose 0' code in.ts in.sym
cp in.sym hurt.sym
printf '\xfc' | dd of=hurt.sym bs=1 seek=956 conv=notrunc status=none
run 0 'segments 57 fields 1 cost 9 loose 0' soft hurt.sym out.sym
cmp -s in.sym out.sym || wrong 'out.sym has other symbols'
leaves in.ts in.sym hurt.sym out.sym

start 'packets that noise makes unreadable come back of softened symbols'
head -c $((626 * 832)) "$room/feed.sym" >in.sym
"$top/examples/capture.py" 1 24.28 1 in.sym noisy.sym
"$dtx" receive noisy.sym noisy.ts >"$room/said" 2>"$room/complaint"
ended 0 $?
[[ $(cat "$room/said") =~ ^segments\ 626\ runs\ 1\ packets\ 573\ fixed\ [0-9]+\ flagged\ [1-9][0-9]{2}\ loose\ 0$ ]] ||
    wrong "printed $(cat "$room/said")"
agrees soft noisy.sym out.sym
run 0 'segments 626 runs 1 packets 573 fixed 0 flagged 0 loose 0' receive out.sym out.ts
head -c $((573 * 188)) "$room/received.ts" | cmp -s - out.ts || wrong 'out.ts is not the first 573 packets'
cp noisy.sym "$room"
cp wanted.sym "$room/softened.sym"

start 'softened symbols are their own least paths'
run 0 'segments 626 fields 2 cost 0 loose 0' soft "$room/softened.sym" out.sym
cmp -s "$room/softened.sym" out.sym || wrong 'out.sym has other symbols'

# The whole groups of four segments of a field are softened, and the rest is copied.
while read -r segments fields rest loose; do
    start "softened symbols of $segments segments and $loose loose bytes"
    head -c $((segments * 832 + loose)) "$room/noisy.sym" >in.sym
    agrees soft in.sym out.sym
    [[ $(cat "$room/said") == "segments $segments fields $fields cost "*" loose $loose" ]] || wrong "printed $(cat "$room/said")"
    [[ $(stat -c %s out.sym) == $((segments * 832)) ]] || wrong "out.sym has not $segments segments"
    head -c $((segments * 832)) in.sym | tail -c $((rest * 832)) | cmp -s - <(tail -c $((rest * 832)) out.sym) ||
        wrong 'a segment of no whole group was changed'
    leaves in.sym wanted.sym out.sym
done <<'end'
0 0 0 0
0 0 0 831
1 0 1 0
4 0 4 0
5 1 0 0
8 1 3 5
9 1 0 831
313 1 0 0
314 1 1 0
317 1 4 0
318 2 0 0
end

# Symbols in which no run begins are copied: data, what is shifted, and what isn't symbols.
while read -r shows from count segments loose; do
    start "no field sync to soften from: $shows"
    tail -c +$((from + 1)) "$room/noisy.sym" | head -c "$count" >in.sym
    run 0 "segments $segments fields 0 cost 0 loose $loose" soft in.sym out.sym
    head -c $((segments * 832)) in.sym | cmp -s - out.sym || wrong 'out.sym is no copy'
done <<'end'
a_segment_of_data 832 832 1 0
the_data_of_a_field 832 259584 312 0
shifted_symbols 1 60000 72 96
end
start 'no field sync to soften from: a transport stream'
run 0 'segments 677 fields 0 cost 0 loose 736' soft ../inputs/long.ts out.sym
head -c $((677 * 832)) ../inputs/long.ts | cmp -s - out.sym || wrong 'out.sym is no copy'

start 'what stands before the first field sync is copied'
tail -c $((832 * 12)) "$room/noisy.sym" >front.sym
cat front.sym "$room/noisy.sym" >in.sym
agrees soft in.sym out.sym
cat front.sym "$room/softened.sym" | cmp -s - out.sym || wrong 'out.sym has other symbols'

start 'softened symbols replace an existing longer output'
head -c $((5 * 832)) "$room/feed.sym" >in.sym
cp ../inputs/long.ts out.sym
run 0 'segments 5 fields 1 cost 0 loose 0' soft in.sym out.sym
cmp -s in.sym out.sym || wrong 'out.sym has other symbols'

start 'random lists of segments with noise'
"$top/checks/independent/soft.py" "$dtx" 16 >"$room/said" || wrong "$(grep FAILED "$room/said" | head -n 3)"

# ---- Refusals ----

refuses_files soft

start 'the disk is full of softened symbols'
fills_up 300 "$room/softened.sym" soft "$room/noisy.sym" out.sym

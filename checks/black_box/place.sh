# Null packets that become placeholders. What OUT must be is written here, or by a program that shares nothing with dtx.

# nulls FIRST LAST: makes ../inputs/nulls.ts of packets with those numbers of PID 0x1FFF.
nulls() {
    local index
    for ((index = $1; index <= $2; index++)); do
        packet 47 1fff "$index"
    done >"$inputs/nulls.ts"
    inputs_before=$(sums)
}

# are_placed STREAM OUT INDEX..: OUT is the stream but for byte 2 of those packets, FA in place of FF.
are_placed() { differ_in 2 377 372 "$@"; }

start 'the first null packet behind place 51 of each field becomes a placeholder'
nulls 0 699
run 0 'packets 700 placed 3 bare 0 loose 0' place ../inputs/nulls.ts out.ts
are_placed ../inputs/nulls.ts out.ts 52 364 676
run 0 'packets 700 placed 0 bare 0 loose 0' place out.ts again.ts
cmp -s out.ts again.ts || wrong 'placing again changes the stream'
leaves out.ts again.ts

start 'a stream without null packets stays'
given 700 5
run 0 'packets 700 placed 0 bare 3 loose 5' place ../inputs/given.ts out.ts
head -c $((700 * 188)) ../inputs/given.ts | cmp -s - out.ts || wrong 'the stream was changed'

start 'a made stream has its placeholders'
run 0 'packets 1300' make 1 1300 in.ts
run 0 'packets 1300 placed 0 bare 1 loose 0' place in.ts out.ts
cmp -s in.ts out.ts || wrong 'the stream was changed'

start 'a placeholder that stands there already is seen'
given 400 0
spoil_all 51:47:1fff,60:47:1ffa,61:47:1fff,363:47:1fff,399:47:1fff
run 0 'packets 400 placed 1 bare 0 loose 0' place ../inputs/given.ts out.ts
are_placed ../inputs/given.ts out.ts 399

start 'a placed stream is adapted, and an exciter locks to it'
nulls 0 699
run 0 'packets 700 placed 3 bare 0 loose 0' place ../inputs/nulls.ts in.ts
run 0 'packets 700 filled 3 loose 0' adapt "$plan" in.ts out.feed
run 0 'packets 700 segments 650 presets 3 mutes 0 loose 0' excite out.feed 7 1000 out.sym out.log

start 'an empty stream'
: >"$inputs/nulls.ts"
inputs_before=$(sums)
run 0 'packets 0 placed 0 bare 0 loose 0' place ../inputs/nulls.ts out.ts
[[ -e out.ts && ! -s out.ts ]] || wrong 'out.ts is not empty'

start 'a packet is refused, and the packets before it stand'
nulls 0 99
packet 48 1fff 70 | dd of="$inputs/nulls.ts" bs=188 seek=70 conv=notrunc status=none
inputs_before=$(sums)
run 6 'packet 70' place ../inputs/nulls.ts out.ts
head -c $((70 * 188)) ../inputs/nulls.ts >wanted.ts
are_placed wanted.ts out.ts 52

start 'random streams'
"$top/checks/independent/place.py" "$dtx" 120 >"$room/said" || wrong "$(grep FAILED "$room/said" | head -n 3)"

# ---- Refusals ----

refuses_files place

start 'the disk is full'
given 3000 0
fills_up 300 ../inputs/given.ts place ../inputs/given.ts out.ts

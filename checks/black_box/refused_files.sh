# Files that are refused.

given 625 0
: >"$inputs/empty.ts"
inputs_before=$(sums)

start 'a missing input'
run 4 'absent missing.ts' adapt "$plan" missing.ts out.ts
leaves_nothing

start 'a missing plan'
run 4 'absent missing.toml' adapt missing.toml ../inputs/given.ts out.ts
leaves_nothing

start 'a missing plan comes before a missing input'
run 4 'absent missing.toml' adapt missing.toml missing.ts out.ts
leaves_nothing

start 'a plan that is refused comes before a missing input, and leaves an older output'
cp ../inputs/given.ts out.ts
echo 'start = ' >plan.toml
run 5 'plan whole 0 text' adapt plan.toml missing.ts out.ts
cmp -s ../inputs/given.ts out.ts || wrong 'out.ts was changed'

start 'a plan that is a folder'
mkdir plan
run 11 'read fault' adapt plan ../inputs/given.ts out.ts
leaves plan

start 'a missing input of `code`'
run 4 'absent missing.ts' code missing.ts out.sym
leaves_nothing

start 'an input of `code` that is a folder'
mkdir in.ts
run 11 'read fault' code in.ts out.sym
leaves in.ts

start 'symbols for a folder'
mkdir out.sym
run 12 'write fault' code ../inputs/given.ts out.sym
leaves out.sym

start 'symbols that fill up their output in mid-stream'
fills_up 600 "$room/long.sym" code ../inputs/long.ts out.sym

start 'a missing input of `receive`'
run 4 'absent missing.sym' receive missing.sym out.ts
leaves_nothing

start 'an input of `receive` that is a folder'
mkdir in.sym
run 11 'read fault' receive in.sym out.ts
leaves in.sym

start 'packets for a folder'
mkdir out.ts
run 12 'write fault' receive "$room/feed.sym" out.ts
leaves out.ts

start 'packets that fill up their output in mid-stream'
fills_up 300 "$room/made.ts" receive "$room/made.sym" out.ts

start 'an input in a folder that is not there'
run 4 'absent nowhere/in.ts' adapt "$plan" nowhere/in.ts out.ts
leaves_nothing

start 'a missing input leaves an older output'
cp ../inputs/given.ts out.ts
run 4 'absent missing.ts' adapt "$plan" missing.ts out.ts
cmp -s ../inputs/given.ts out.ts || wrong 'out.ts was changed'

start 'an input that is a folder'
mkdir in.ts
run 11 'read fault' adapt "$plan" in.ts out.ts
leaves in.ts

start 'an input through a file as if that were a folder'
run 11 'read fault' adapt "$plan" ../inputs/given.ts/in.ts out.ts
leaves_nothing

start 'an output that is a folder'
mkdir out.ts
run 12 'write fault' adapt "$plan" ../inputs/given.ts out.ts
leaves out.ts

start 'an output in a folder that is not there'
run 12 'write fault' adapt "$plan" ../inputs/given.ts nowhere/out.ts
leaves_nothing

start 'a missing input comes before an output that cannot be'
run 4 'absent missing.ts' adapt "$plan" missing.ts nowhere/out.ts
leaves_nothing

if [[ -r /proc/self/mem ]]; then
    start 'an input whose first byte cannot be read'
    run 11 'read fault' adapt "$plan" /proc/self/mem out.ts
    leaves_nothing
fi

start 'a made stream whose output is a folder'
mkdir out.ts
run 12 'write fault' make 1 4 out.ts
leaves out.ts

start 'a made stream in a folder that is not there'
run 12 'write fault' make 1 4 nowhere/out.ts
leaves_nothing

start 'a made stream whose output fills up'
fills_up 300 "$room/made.ts" make 1 31200 out.ts

start 'an output that fills up in mid-stream'
fills_up 300 "$room/long.feed" adapt "$plan" ../inputs/long.ts out.ts

refuses_symbols_and_log "$room/feed.ts" "$room/from_order.sym" excite 7 1000

if [[ -c /dev/full ]]; then
    start 'a full device as the output'
    run 12 'write fault' adapt "$plan" ../inputs/given.ts /dev/full

    start 'an empty feed fits a full device'
    run 0 'packets 0 filled 0 loose 0' adapt "$plan" ../inputs/empty.ts /dev/full

    start 'a made stream for a full device'
    run 12 'write fault' make 1 4 /dev/full
    run 0 'packets 0' make 1 0 /dev/full

    start 'a full standard output after a made stream'
    "$dtx" make 1 9 out.ts >/dev/full 2>"$room/complaint"
    ended 12 $?
    head -c $((9 * 188)) "$room/made.ts" | cmp -s - out.ts || wrong 'out.ts is not whole'
    leaves out.ts

    start 'symbols for a full device'
    run 12 'write fault' code ../inputs/given.ts /dev/full
    run 0 'packets 0 segments 0 loose 0' code ../inputs/empty.ts /dev/full

    start 'packets for a full device'
    run 12 'write fault' receive "$room/feed.sym" /dev/full
    run 10 'no sync' receive ../inputs/empty.ts /dev/full

    start 'symbols of an exciter for a full device'
    run 12 'write fault' excite "$room/feed.ts" 7 1000 /dev/full out.log
    run 0 'packets 0 segments 0 presets 0 mutes 0 loose 0' excite ../inputs/empty.ts 7 0 /dev/full out.log

    start 'the log of an exciter for a full device'
    run 12 'write fault' excite "$room/feed.ts" 7 1000 out.sym /dev/full

    start 'a full standard output after an exciter'
    "$dtx" excite "$room/feed.ts" 7 1000 out.sym out.log >/dev/full 2>"$room/complaint"
    ended 12 $?
    has_digest out.sym d053d41c45f273e3e262b297d5fa7c7df44adbfb998e9210481653691e0f1178
    has_digest out.log 42071eb44f95e818bfcf4eb4a16103cb4638dc713e3a49989c7d8621846571f4
    leaves out.sym out.log

    start 'a full standard output after packets'
    "$dtx" receive "$room/from_order.sym" out.ts >/dev/full 2>"$room/complaint"
    ended 12 $?
    has_digest out.ts 25bcdec4408a72dc0fc771a6f9f4864b5bece438a7f254858a62c49148eb8056
    leaves out.ts

    start 'a full standard output after symbols'
    "$dtx" code ../inputs/given.ts out.sym >/dev/full 2>"$room/complaint"
    ended 12 $?
    coded_front 625
    leaves out.sym

    start 'a full standard output after Done'
    "$dtx" adapt "$plan" ../inputs/given.ts out.ts >/dev/full 2>"$room/complaint"
    ended 12 $?
    holds out.ts 625
    leaves out.ts

    # refused_to_full STATUS WORD..: a full standard output leaves the status of a refusal.
    refused_to_full() {
        local status=$1
        shift
        start "a full standard output after a refusal of status $status"
        "$dtx" "$@" >/dev/full 2>"$room/complaint"
        ended "$status" $?
        leaves_nothing
    }
    refused_to_full 2 adapt
    refused_to_full 2 make 01 4 out.ts
    refused_to_full 3 adapt same same out.ts
    refused_to_full 4 adapt "$plan" missing.ts out.ts
    refused_to_full 4 code missing.ts out.sym
fi

start 'a closed standard output after Done'
"$dtx" adapt "$plan" ../inputs/given.ts out.ts >&- 2>"$room/complaint"
ended 12 $?
holds out.ts 625
leaves out.ts

#!/usr/bin/env bash
# network.sh PLAN STREAM ADDRESS:DELAY..: a network whose transmitters are given the whole feed, with one exciter for
# each, side by side. It writes net.feed, and tx-ADDRESS.sym and tx-ADDRESS.log for each address, in the current
# folder. They are what `dtx net` writes where its events give the whole feed to each transmitter. DELAY is that of
# the transmitter in the plan.

. "$(dirname "${BASH_SOURCE[0]}")/pieces.sh"
usage='usage: network.sh PLAN STREAM ADDRESS:DELAY..'
(($# >= 3)) || fail "$usage"
plan=$1 stream=$2
shift 2
names=(net.feed)
for each in "$@"; do
    [[ $each =~ ^[0-9]+:[0-9]+$ ]] || fail "$usage"
    names+=("tx-${each%%:*}.sym" "tx-${each%%:*}.log")
done
are_apart "$plan" "$stream" "${names[@]}"
asks_for "$plan"
asks_for "$stream"
make_folder

beside net.feed
feed=$made
line=$("$folder/dtx" adapt "$plan" "$stream" "$feed")
status=$?
((status == 0)) || answer $status "$line"

number=0
for each in "$@"; do
    # Each has the feed under a name of its own, for it may go to another machine.
    ln -- "$feed" "$folder/in-$number" 2>/dev/null || cp -- "$feed" "$folder/in-$number" || exit 1
    has_words $number excite in-$number "${each%%:*}" "${each#*:}" out-$number log-$number
    number=$((number + 1))
done
run_all $number log
rm -f "$folder"/in-*

joined=("$feed")
for ((number = 0; number < $#; number++)); do
    for kind in out log; do
        beside "${names[1 + 2 * number]}"
        mv -T -- "$folder/$kind-$number" "$made" || answer 12 'write fault'
        joined+=("$made")
    done
done
for ((number = 0; number < ${#names[@]}; number++)); do
    mv -T -- "${joined[number]}" "${names[number]}" || answer 12 'write fault'
done
for ((number = 0; number < $#; number++)); do
    printf '%s %s\n' "${names[1 + 2 * number]%.sym}" "$(cat "$folder/line-$number")"
done

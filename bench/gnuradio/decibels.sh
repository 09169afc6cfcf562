#!/usr/bin/env bash
# How many packets of a made stream come back of its symbols with noise, by decibels of the signal over the noise:
# - of a capture at one step a unit, by `receive`, and by `soft` and by `acquire` with `receive` after them
# - of a capture at eight steps a unit, by `acquire`, and by `refine` with 16 rounds
# - of the same, by GNU Radio's receive chain, where Debian's packages `gnuradio` and `python3-numpy` are installed
#
# `decibels.sh [DECIBELS..]` prints a table with tabs, which examples/pictures/reception.py draws. It takes a minute
# for each line.

set -eu
stream=1300
decibels=("$@")
((${#decibels[@]})) || decibels=(13 13.5 14 14.5 15 16 18 20 22 24 26)

. "$(dirname "${BASH_SOURCE[0]}")/../commands/timing.sh"
. "$top/bench/gnuradio/blocks.sh"
"$program" make 1 $stream "$room/in.ts" >"$room/said"
"$program" code "$room/in.ts" "$room/in.sym" >"$room/said"
find_gnuradio && theirs='GNU Radio, 8 steps' || { theirs= && gnuradio_python=python3; }

# given SYMBOLS: how many packets come back of a symbol file.
given() {
    "$program" receive "$1" "$room/out.ts" >"$room/said" || [[ $? == 10 ]]
    back "$room/out.ts" | cut -d ' ' -f 1
}

# captured SCALE DECIBELS: makes air.sym.
captured() {
    "$top/examples/capture.py" "$1" "$2" 1 "$room/in.sym" "$room/air.sym"
}

printf '%s' dB $'\t'receive $'\t''soft, receive' $'\t''acquire, receive, 1 step' $'\t''acquire, receive, 8 steps' $'\t''refine, receive, 8 steps' "${theirs:+$'\t'$theirs}" $'\n'
for each in "${decibels[@]}"; do
    captured 1 "$each"
    line=$each$'\t'$(given "$room/air.sym")
    "$program" soft "$room/air.sym" "$room/made.sym" >"$room/said"
    line+=$'\t'$(given "$room/made.sym")
    "$program" acquire 1 "$room/air.sym" "$room/made.sym" >"$room/said" || [[ $? == 10 ]]
    line+=$'\t'$(given "$room/made.sym")
    captured 8 "$each"
    "$program" acquire 8 "$room/air.sym" "$room/made.sym" >"$room/said" || [[ $? == 10 ]]
    line+=$'\t'$(given "$room/made.sym")
    "$program" refine 8 16 "$room/air.sym" "$room/made.sym" >"$room/said" || [[ $? == 10 ]]
    line+=$'\t'$(given "$room/made.sym")
    if [[ $theirs ]]; then
        "$gnuradio_python" "$top/bench/gnuradio/receive.py" "$room/air.sym" "$room/out.ts" 8 >"$room/said" 2>&1
        line+=$'\t'$(back "$room/out.ts" | cut -d ' ' -f 1)
    fi
    printf '%s\n' "$line"
done

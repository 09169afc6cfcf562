#!/usr/bin/env bash
# How many packets come back of captures with white noise near the threshold, by `acquire` and by `refine` with 16 rounds, and how many of
# those that aren't flagged are wrong. `noise.sh [DECIBELS..]` prints a line for each ratio of signal over noise. It takes two minutes a line.
# The status is 0 where no packet is wrong.

set -eu
packets=31200
decibels=("$@")
((${#decibels[@]})) || decibels=(13 13.25 13.45 13.5 13.75 14 14.27 14.5)

. "$(dirname "${BASH_SOURCE[0]}")/timing.sh"
"$program" make 1 $packets "$room/in.ts" >"$room/said"
"$program" code "$room/in.ts" "$room/in.sym" >"$room/said"

# counted WORD..: decodes the capture by a command, and prints how many of the packets are not flagged, of how many, and how many of them
# are wrong.
counted() {
    "$program" "$@" "$room/air.sym" "$room/made.sym" >"$room/said"
    "$program" receive "$room/made.sym" "$room/out.ts" >"$room/said"
    python3 -c '
import sys
sent, given = (open(name, "rb").read() for name in sys.argv[1:])
starts = [i for i in range(0, len(given), 188) if given[i + 1] < 128]
wrong = sum(given[i + 1 : i + 188] != sent[i + 1 : i + 188] for i in starts)
print("%d of %d, wrong %d" % (len(starts), len(given) // 188, wrong))' "$room/in.ts" "$room/out.ts"
}

status=0
for each in "${decibels[@]}"; do
    "$top/examples/capture.py" 8 "$each" 1 "$room/in.sym" "$room/air.sym"
    for words in 'acquire 8' 'refine 8 16'; do
        read -ra command <<<"$words"
        line=$(counted "${command[@]}")
        printf '%s dB, %s: %s\n' "$each" "$words" "$line"
        [[ $line == *'wrong 0' ]] || status=1
    done
done
exit $status

#!/usr/bin/env bash
# Measures `dtx receive` on symbols of a made stream in whose words 1.3 bytes, and then ten, are wrong. Beside it
# stands GNU Radio's receive chain on a part of them, where Debian's packages `gnuradio` and `python3-numpy` are
# installed. It says how many of the packets each gave back. All of it is one run, on one processor where `taskset` is
# there, `dtx` the best of three and the other once. It needs 500 MB on the disk of temporary files. The status is 0
# where `dtx` is at least 40 and 15 times as fast, and where there is no GNU Radio.

set -eu
rounds=3
fields=340

. "$(dirname "${BASH_SOURCE[0]}")/../commands/timing.sh"
. "$top/bench/gnuradio/blocks.sh"
need_gnuradio
packets=$((fields * field_packets))
"$program" make 1 $packets "$room/in.ts" >"$room/said"
"$program" code "$room/in.ts" "$room/in.sym" >"$room/said"

# beside MEAN BAR: measures both with so many wrong bytes a word.
beside() {
    local taken round
    "$gnuradio_python" "$top/bench/gnuradio/damage.py" "$room/in.sym" "$room/hurt.sym" "$1"
    cut_fields "$room/hurt.sym"
    unset 'best[dtx receive]'
    for ((round = 0; round < rounds; round++)); do
        measure 'dtx receive' "$room/out.ts" "$program" receive "$room/hurt.sym" "$room/out.ts"
    done
    printf '%s wrong bytes a word: %s\n' "$1" "$(cat "$room/said")"
    rate 'dtx receive' $packets "${best[dtx receive]}"
    taken=$(without_start "$room/least.sym" "$room/few.sym" "$room/few.ts" "$gnuradio_python" "$top/bench/gnuradio/receive.py")
    printf 'dtx gave back %s packets, GNU Radio %s\n' "$(back "$room/out.ts")" "$(back "$room/few.ts")"
    compared 'dtx receive' $packets $(((few_fields - 1) * field_packets)) "$taken" "$2"
}

status=0
beside 1.3 40 || status=1
beside 10 15 || status=1
exit $status

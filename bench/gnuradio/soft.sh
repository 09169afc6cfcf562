#!/usr/bin/env bash
# Measures `dtx soft` on the symbols of a made stream with noise. Beside it, where Debian's packages `gnuradio` and
# `python3-numpy` are installed, stand two of GNU Radio, each on a part of the symbols:
# - its whole receive chain
# - its Viterbi decoder alone, on that part's lists of symbols of each trellis coder and field
#
# It says whether the paths of `dtx` and of the Viterbi decoder cost the same. All of it is one run, on one processor
# where `taskset` is there, `dtx` the best of three and the other once. It needs 500 MB on the disk of temporary
# files. The status is 0 where `dtx` is at least 20 times as fast as each of them and the costs are the same, and
# where there is no GNU Radio.

set -eu
rounds=3
bar=20
deviation=0.24
fields=340

. "$(dirname "${BASH_SOURCE[0]}")/../commands/timing.sh"
. "$top/bench/gnuradio/blocks.sh"
need_gnuradio
packets=$((fields * field_packets))
trellis=("$gnuradio_python" "$top/bench/gnuradio/trellis.py")
"$program" make 1 $packets "$room/in.ts" >"$room/said"
"$program" code "$room/in.ts" "$room/in.sym" >"$room/said"
"${trellis[@]}" noise $deviation "$room/in.sym" "$room/noisy.sym"
cut_fields "$room/noisy.sym"

for ((round = 0; round < rounds; round++)); do
    measure 'dtx soft' "$room/out.sym" "$program" soft "$room/noisy.sym" "$room/out.sym"
done
printf 'best of %d%s: %s\n' $rounds "${pinned[*]:+, on one processor}" "$(cat "$room/said")"
rate 'dtx soft' $packets "${best[dtx soft]}"

# beside WHAT SUFFIX COMMAND..: measures the command, whose words are followed by an input and an output.
status=0
beside() {
    local what=$1 suffix=$2 taken
    shift 2
    taken=$(without_start "$room/least.$suffix" "$room/few.$suffix" "$room/theirs" "$@")
    printf '%s:\n' "$what"
    compared 'dtx soft' $packets $(((few_fields - 1) * field_packets)) "$taken" $bar || status=1
}

beside 'the whole receive chain' sym "$gnuradio_python" "$top/bench/gnuradio/receive.py"
for part in few least; do
    "${trellis[@]}" lists "$room/$part.sym" "$room/$part.lists"
done
beside 'the Viterbi decoder alone' lists "${trellis[@]}" paths

line=$("$program" soft "$room/few.sym" "$room/out.sym")
cost=$("${trellis[@]}" cost "$room/few.lists" "$room/theirs")
if [[ $line == *" fields $few_fields cost $cost "* ]]; then
    printf 'the paths of both cost %d\n' "$cost"
else
    printf 'the paths of GNU Radio cost %d, and dtx says: %s\n' "$cost" "$line"
    status=1
fi
exit $status

#!/usr/bin/env bash
# Measures `dtx receive` on the undamaged symbols of a made stream of 200 MB beside GNU Radio's receive chain, where Debian's
# package `gnuradio` is installed. GNU Radio searches the trellis for the likeliest path besides, where `dtx` slices each
# symbol. All of it in one run, on one processor where `taskset` is there, `dtx` the best of three and the other once. It needs
# 2 GB on the disk of temporary files. The status is 0 where `dtx` is at least 65 times as fast, and where there is no
# GNU Radio.

set -eu
rounds=3
bar=65
packets=1063920

. "$(dirname "${BASH_SOURCE[0]}")/../commands/timing.sh"
. "$top/bench/gnuradio/blocks.sh"
"$program" make 1 $packets "$room/in.ts" >"$room/said"
"$program" code "$room/in.ts" "$room/in.sym" >"$room/said"
rm "$room/in.ts"
cut_fields "$room/in.sym"

for ((round = 0; round < rounds; round++)); do
    measure 'dtx receive' "$room/out.ts" "$program" receive "$room/in.sym" "$room/out.ts"
done
printf 'best of %d%s\n' $rounds "${pinned[*]:+, on one processor}"
rate 'dtx receive' $packets "${best[dtx receive]}"
rm "$room/in.sym" "$room/out.ts"

need_gnuradio
taken=$(without_start "$room/least.sym" "$room/few.sym" "$room/out.ts" "$gnuradio_python" "$top/bench/gnuradio/receive.py")
compared 'dtx receive' $packets $(((few_fields - 1) * field_packets)) "$taken" $bar

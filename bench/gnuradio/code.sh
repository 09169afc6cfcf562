#!/usr/bin/env bash
# Measures `dtx code` on a made stream of 200 MB beside GNU Radio's chain of the same coding, where Debian's package
# `gnuradio` is installed. All of it in one run, on one processor where `taskset` is there, `dtx` the best of three and
# the other once. It needs 2 GB on the disk of temporary files. The aim is 25 times; the status is 0 where `dtx` is at
# least 22 times as fast, and where there is no GNU Radio.

set -eu
rounds=3
bar=22
packets=1063830
# GNU Radio is slow, so it gets a part of the stream: a multiple of the twelve packets that it codes at once.
few_packets=106080
least_packets=12

. "$(dirname "${BASH_SOURCE[0]}")/../commands/timing.sh"
. "$top/bench/gnuradio/blocks.sh"
"$program" make 1 $packets "$room/in.ts" >"$room/said"
head -c $((few_packets * 188)) "$room/in.ts" >"$room/few.ts"

for ((round = 0; round < rounds; round++)); do
    measure 'dtx code' "$room/out.sym" "$program" code "$room/in.ts" "$room/out.sym"
done
printf 'best of %d%s\n' $rounds "${pinned[*]:+, on one processor}"
rate 'dtx code' $packets "${best[dtx code]}"
rm "$room/out.sym"

need_gnuradio
head -c $((least_packets * 188)) "$room/few.ts" >"$room/least.ts"
taken=$(without_start "$room/least.ts" "$room/few.ts" "$room/out.sym" "$gnuradio_python" "$top/bench/gnuradio/code.py")
compared 'dtx code' $packets $((few_packets - least_packets)) "$taken" $bar

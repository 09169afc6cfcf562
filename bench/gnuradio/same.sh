#!/usr/bin/env bash
# Codes a made stream of 2,000 packets by `dtx code` and by GNU Radio's blocks of the same coding (Debian's packages
# `gnuradio` and `python3-numpy`). It says whether their symbols are the same: all data segments, symbol for symbol,
# and the field syncs. Symbols 709, 711, 713 and 715 of a field sync are left out, since they are mode bits that the
# profile chooses otherwise. The status is 0 where the symbols are the same, and where there is no GNU Radio.

set -eu
packets=2000
# GNU Radio codes whole twelves of packets: four more are given to it, and what comes of them is left out.
more=4

. "$(dirname "${BASH_SOURCE[0]}")/../commands/timing.sh"
. "$top/bench/gnuradio/blocks.sh"
need_gnuradio
"$program" make 1 $packets "$room/in.ts" >"$room/said"
"$program" make 1 $((packets + more)) "$room/twelves.ts" >"$room/said"
"$program" code "$room/in.ts" "$room/dtx.sym" >"$room/said"
"$gnuradio_python" "$top/bench/gnuradio/code.py" "$room/twelves.ts" "$room/levels"
"$gnuradio_python" "$top/bench/gnuradio/same.py" "$room/dtx.sym" "$room/levels"

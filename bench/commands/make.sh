#!/usr/bin/env bash
# Measures `dtx make` of 200 MB against a program in Rust that computes the same packets and writes them in the same
# pieces with the file opened for each. All of it in one run, on one processor where `taskset` is there, each the
# best of three. It needs rustc and 400 MB on the disk of temporary files. The status is 0 where `make` takes at most
# 2 times as long.

set -eu
rounds=3
bar=2
seed=1
packets=1063830

. "$(dirname "${BASH_SOURCE[0]}")/timing.sh"
rustc -O -o "$room/make_pieces" "$top/bench/commands/make_pieces.rs"

for ((round = 0; round < rounds; round++)); do
    measure 'dtx make' "$room/made.ts" "$program" make $seed $packets "$room/made.ts"
    measure pieces "$room/pieces.ts" "$room/make_pieces" $seed $packets "$room/pieces.ts"
    cmp "$room/made.ts" "$room/pieces.ts"
done

make=${best[dtx make]}
pieces=${best[pieces]}
printf '200 MB, best of %d%s\n' $rounds "${pinned[*]:+, on one processor}"
for name in 'dtx make' pieces; do
    awk -v name="$name" -v time="${best[$name]}" -v packets=$packets \
        'BEGIN { printf "%-10s %7.3f s %6.0f MB/s %5.0f ns a packet\n", name, time / 1e6, packets * 188 / time, time * 1e3 / packets }'
done
awk -v make="$make" -v pieces="$pieces" -v bar=$bar \
    'BEGIN { printf "make takes %.2f times as long as the pieces (bar: %d)\n", make / pieces, bar }'
((make <= bar * pieces))

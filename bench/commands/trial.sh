#!/usr/bin/env bash
# Measures `dtx trial 1 N` for N of 10,000, 312,000 and 1,000,000 packets, on one processor where `taskset` is there,
# each the best of three. It prints three figures: MB of feed a second, how many times as long a packet of the longest
# takes as one of the shortest, and the memory of both. It needs 4 GB on the disk of temporary files.

set -eu
rounds=3
counts=(10000 312000 1000000)

. "$(dirname "${BASH_SOURCE[0]}")/timing.sh"
cd "$room"

for ((round = 0; round < rounds; round++)); do
    for count in "${counts[@]}"; do
        rm -f tx-* net.*
        measure "$count" trial.ts "$program" trial 1 "$count"
    done
done

printf 'best of %d%s\n' $rounds "${pinned[*]:+, on one processor}"
for count in "${counts[@]}"; do
    awk -v count="$count" -v time="${best[$count]}" \
        'BEGIN { printf "trial 1 %-8d %8.3f s %6.1f MB/s of feed, each packet given three times\n", count, time / 1e6, count * 188 / time }'
done
awk -v few="${counts[0]}" -v many="${counts[2]}" -v short="${best[${counts[0]}]}" -v long="${best[${counts[2]}]}" \
    'BEGIN { printf "a packet of %d takes %.2f times as long as one of %d\n", many, (long / many) / (short / few), few }'
for count in "${counts[0]}" "${counts[2]}"; do
    rm -f tx-* net.*
    printf 'memory of trial 1 %d: %d kB\n' "$count" "$(memory "$program" trial 1 "$count" | tail -n 1)"
done

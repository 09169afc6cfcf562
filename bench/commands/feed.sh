#!/usr/bin/env bash
# Measures these, in one run:
# - `dtx adapt` of a made stream of 200 MB and `dtx excite` of its feed, beside `dtx code` of the same packets, whose
#   coder both of them run
# - `dtx watch` of the feed beside `excite`
# - the memory of `adapt` and `excite` at 200 MB and at 2 MB
#
# It runs on one processor where `taskset` is there, and takes the best of three. It needs 2.5 GB on the disk of
# temporary files. The status is 0 where these bars hold:
# - `adapt` takes at most 0.75 times as long as `code` of the stream.
# - `excite` takes at most 1.1 times as long as `code` of the feed.
# - `watch` takes at most 1.1 times as long as `excite`.
# - The memory is the same, but for 256 kB by which it differs from run to run.

set -eu
rounds=3
adapt_bar=0.75
excite_bar=1.1
watch_bar=1.1
memory_bar=256
packets=1063830
few_packets=10639

. "$(dirname "${BASH_SOURCE[0]}")/timing.sh"
plan=$top/examples/two-sites.toml
"$program" make 1 $packets "$room/in.ts" >"$room/said"
head -c $((few_packets * 188)) "$room/in.ts" >"$room/few.ts"

for ((round = 0; round < rounds; round++)); do
    measure 'code of the stream' "$room/out.sym" "$program" code "$room/in.ts" "$room/out.sym"
    rm "$room/out.sym"
    measure 'adapt' "$room/feed.ts" "$program" adapt "$plan" "$room/in.ts" "$room/feed.ts"
    measure 'code of the feed' "$room/out.sym" "$program" code "$room/feed.ts" "$room/out.sym"
    rm "$room/out.sym"
    measure 'excite' "$room/out.sym" "$program" excite "$room/feed.ts" 7 1000 "$room/out.sym" "$room/out.log"
    rm "$room/out.sym"
    measure 'watch' "$room/out.txt" "$program" watch "$room/feed.ts" "$room/out.txt"
done

printf '200 MB, best of %d%s\n' $rounds "${pinned[*]:+, on one processor}"
for name in 'code of the stream' adapt 'code of the feed' excite watch; do
    awk -v name="$name" -v time="${best[$name]}" -v packets=$packets \
        'BEGIN { printf "%-20s %7.3f s %6.0f MB/s %5.0f ns a packet\n", name, time / 1e6, packets * 188 / time, time * 1e3 / packets }'
done

# steady NAME LARGE SMALL: says how much memory it held at 200 MB and at 2 MB, and whether that is the same.
steady() {
    printf 'memory of %s: %d kB at 200 MB, %d kB at 2 MB (bar: %d kB more)\n' "$1" "$2" "$3" $memory_bar
    (($2 <= $3 + memory_bar))
}

status=0
within adapt $adapt_bar 'code of the stream' || status=1
within excite $excite_bar 'code of the feed' || status=1
within watch $watch_bar excite || status=1
"$program" adapt "$plan" "$room/few.ts" "$room/few.feed" >"$room/said"
steady adapt "$(memory "$program" adapt "$plan" "$room/in.ts" "$room/out.ts")" \
    "$(memory "$program" adapt "$plan" "$room/few.ts" "$room/out.ts")" || status=1
steady excite "$(memory "$program" excite "$room/feed.ts" 7 1000 "$room/out.sym" "$room/out.log")" \
    "$(memory "$program" excite "$room/few.feed" 7 1000 "$room/out.sym" "$room/out.log")" || status=1
exit $status

#!/usr/bin/env bash
# Measures what is made of the symbols of a feed of 100 MB:
# - `dtx mend` beside `dtx receive`, of symbols of which none is missing
# - `dtx repeat` beside `receive` and `dtx excite` of what was received
# - `dtx acquire` beside `dtx soft`, of symbols with noise
# - `acquire` of a capture that has 10,000,000 symbols of noise in front, which are searched
# - `dtx level` of these two captures, beside `acquire`
# - eight rounds of `dtx refine` over a capture at 15 dB, beside `acquire`, and over one at 13.75 dB, beside the air
#
# All of it is one run, on one processor where `taskset` is there, each the best of three. It needs 3 GB on the disk
# of temporary files. The status is 0 where these bars hold:
# - `mend` takes at most 1.25 times as long as `receive`.
# - `repeat` takes at most 1.1 times as long as both others.
# - `acquire` takes at most 1.2 times as long as `soft`.
# - `level` takes at most 1.2 times as long as `acquire`.
# - Eight rounds take at most 3 times as long as `acquire` at 15 dB. At 13.75 dB they give as many packets a second as
#   the air does, 12,894, or more.
# - A search takes at most 40 ns a symbol, or 45 ns by `level`.

set -eu
rounds=3
packets=531600
search_symbols=10000000
search_bar=40
level_bar=45
air_packets=12894

. "$(dirname "${BASH_SOURCE[0]}")/timing.sh"
plan=$top/examples/two-sites.toml
"$program" make 1 $packets "$room/in.ts" >"$room/said"
"$program" adapt "$plan" "$room/in.ts" "$room/feed.ts" >"$room/said"
"$program" code "$room/feed.ts" "$room/feed.sym" >"$room/said"

# Symbols with a little noise, by a made stream's bytes: a quarter lie one below, and one of 32 one above, which slices to another level, so
# that `soft` finds their field syncs too.
python3 - "$room" <<'end'
import sys
room = sys.argv[1]
with open(f"{room}/feed.sym", "rb") as file:
    symbols = file.read(100 * 313 * 832)
with open(f"{room}/in.ts", "rb") as file:
    random = file.read(len(symbols))
noise = [1 if byte % 32 == 0 else -1 if byte % 4 == 1 else 0 for byte in range(256)]
noisy = bytes((symbol + noise[byte]) & 255 for symbol, byte in zip(symbols, random))
with open(f"{room}/noisy.sym", "wb") as file:
    file.write(noisy)
with open(f"{room}/search.sym", "wb") as file:
    file.write(bytes(byte & 15 for byte in random[:5000000]) * 2 + noisy)
end

# Two captures of the same symbols as a receiver of the air has them, one well above the threshold and one near it.
head -c $((100 * 313 * 832)) "$room/feed.sym" >"$room/sent.sym"
"$top/examples/capture.py" 8 15 1 "$room/sent.sym" "$room/good.sym"
"$top/examples/capture.py" 8 13.75 1 "$room/sent.sym" "$room/near.sym"

# timed_into NAME OUT COMMAND..: measures the command, and lets its output go.
timed_into() {
    measure "$@"
    rm -f "$room"/out.*
}

# searches NAME SEARCH WHOLE BAR: says how long a symbol of the search takes, and whether that is within the bar.
searches() {
    awk -v name="$1" -v time=$((best[$2] - best[$3])) -v symbols=$search_symbols -v bar="$4" \
        'BEGIN { printf "the search of %s takes %.1f ns a symbol (bar: %d)\n", name, time * 1e3 / symbols, bar; exit time * 1e3 > bar * symbols }'
}

# as_fast_as_air NAME PACKETS: says how many packets a second that is, and whether it is as fast as the air.
as_fast_as_air() {
    awk -v name="$1" -v time="${best[$1]}" -v packets="$2" -v bar=$air_packets \
        'BEGIN { rate = packets * 1e6 / time; printf "%s gives %d packets a second (bar: %d)\n", name, rate, bar; exit rate < bar }'
}

for ((round = 0; round < rounds; round++)); do
    measure receive "$room/out.ts" "$program" receive "$room/feed.sym" "$room/out.ts"
    # What was received has no marks, so an exciter is given as many packets of the feed.
    head -c "$(stat -c %s "$room/out.ts")" "$room/feed.ts" >"$room/back.ts"
    timed_into mend "$room/out.ts" "$program" mend "$room/feed.sym" "$room/out.ts"
    timed_into excite "$room/out.sym" "$program" excite "$room/back.ts" 7 1000 "$room/out.sym" "$room/out.log"
    timed_into repeat "$room/out.sym" "$program" repeat "$room/feed.sym" 7 1000 "$room/out.sym" "$room/out.log"
    timed_into soft "$room/out.sym" "$program" soft "$room/noisy.sym" "$room/out.sym"
    timed_into acquire "$room/out.sym" "$program" acquire 1 "$room/noisy.sym" "$room/out.sym"
    timed_into search "$room/out.sym" "$program" acquire 1 "$room/search.sym" "$room/out.sym"
    timed_into level "$room/out.sym" "$program" level "$room/noisy.sym" "$room/out.sym" "$room/out.log"
    timed_into acquiregood "$room/out.sym" "$program" acquire 8 "$room/good.sym" "$room/out.sym"
    timed_into refinegood "$room/out.sym" "$program" refine 8 8 "$room/good.sym" "$room/out.sym"
    timed_into refinenear "$room/out.sym" "$program" refine 8 8 "$room/near.sym" "$room/out.sym"
    timed_into levelsearch "$room/out.sym" "$program" level "$room/search.sym" "$room/out.sym" "$room/out.log"
done

printf 'best of %d%s\n' $rounds "${pinned[*]:+, on one processor}"
status=0
within mend 1.25 receive || status=1
within repeat 1.1 receive excite || status=1
within acquire 1.2 soft || status=1
within level 1.2 acquire || status=1
within refinegood 3 acquiregood || status=1
as_fast_as_air refinenear 31200 || status=1
searches acquire search acquire $search_bar || status=1
searches level levelsearch level $level_bar || status=1
exit $status

#!/bin/sh
# Measures the correctors beside the encoder and beside a corrector in plain Rust by the same method, on one core and
# in one run, and prints the least times. The status is 0 where these bars hold:
# - The linear corrector takes at most one and a half times as long for an undamaged word as the encoder takes to make
#   it.
# - The faster one takes at most so much of the plain one's time: 1 with one wrong byte, 0.8 with four, 0.67 with
#   seven, 0.61 with ten.
# - The faster one gives a word up no later than it corrects ten wrong bytes.
# It wants `rustc`, and the kit's `rt` where the program isn't built yet.
set -eu

top=$(cd "$(dirname "$0")/../.." && pwd)
. "$top/bench/parts/parts.sh"
# shellcheck disable=SC2086
build_plain correct $processor

# Both make the same bytes wrong, so a sum of what came of them is the same.
for _ in 1 2 3; do
    $pinned "$proved" correct
    $pinned "$plain"
done | awk '
    $1 == "encode" && (!encode || $2 < encode) { encode = $2 }
    $3 == "wrong:" {
        if (!(($1, $2) in least) || $4 < least[$1, $2]) least[$1, $2] = $4
        here = $1 SUBSEP $2
    }
    $1 == "sum" { sum[here] = $2 }
    function ratio(wrong) { return least["fast", wrong] / least["plain", wrong] }
    function tell(wrong, bar) {
        printf "%d wrong: %d ns, in plain Rust %d ns, ratio %.2f\n", wrong, least["fast", wrong], least["plain", wrong],
            ratio(wrong)
        if (sum["fast", wrong] != sum["plain", wrong]) differ = differ " " wrong
        if (ratio(wrong) > bar) slow = slow " " wrong
    }
    END {
        printf "encode: %d ns a packet\n", encode
        printf "linear, undamaged: %d ns a word, ratio %.2f\n", least["linear", 0], least["linear", 0] / encode
        printf "linear, 10 wrong: %d ns a word\n", least["linear", 10]
        printf "fast, undamaged: %d ns a word\n", least["fast", 0]
        tell(1, 1); tell(4, 0.8); tell(7, 0.67); tell(10, 0.61); tell(11, 0.61)
        if (least["fast", 11] > least["fast", 10]) slow = slow " given up"
        if (least["linear", 0] > 1.5 * encode) slow = slow " undamaged"
        if (differ) print "other words came of:" differ
        if (slow) print "too slow:" slow
        exit (differ || slow) ? 1 : 0
    }'

#!/bin/sh
# Measures whitening, the interleaver, the outer coding, the trellis coders, a whole group, and the certificate of a
# least path. Each stands beside the same shape in plain Rust, on one core and in one run. It prints the least time of
# each and their ratio. The status is 0 where the trellis coders take at most twice as long as the same sixteen lanes
# in plain Rust.
# It wants `rustc`, and the kit's `rt` where the program isn't built yet.
set -eu
bar=2

top=$(cd "$(dirname "$0")/../.." && pwd)
. "$top/bench/parts/parts.sh"
# shellcheck disable=SC2086
build_plain codec $processor

# Both do the same rounds, so a sum of what came of them is the same.
for work in whiten spread outer trellis group proves; do
    for _ in 1 2 3; do
        $pinned "$proved" $work | sed "s/^/proved $work /"
        $pinned "$plain" $work | sed "s/^/plain $work /"
    done
done | awk -v bar=$bar '
    $3 == "sum" {
        if ($2 in sum && sum[$2] != $4) differ = differ " " $2
        sum[$2] = $4
    }
    $5 == "ns" {
        if (!(($1, $2) in least) || $4 < least[$1, $2]) least[$1, $2] = $4
        piece[$2] = $7
    }
    function ratio(work) { return least["proved", work] / least["plain", work] }
    function tell(work) {
        printf "%s: %.1f ns a %s, in plain Rust %.1f ns, ratio %.2f\n", work, least["proved", work], piece[work],
            least["plain", work], ratio(work)
    }
    END {
        tell("whiten"); tell("spread"); tell("outer"); tell("trellis"); tell("group"); tell("proves")
        if (differ != "") {
            print "the two programs code differently:" differ
            exit 1
        }
        exit ratio("trellis") > bar
    }'

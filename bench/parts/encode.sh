#!/bin/sh
# Measures the encoder beside the same shape in plain Rust, on one core, and prints the least time of each and their ratio.
# It wants `rustc`, and the kit's `rt` where the program isn't built yet.
set -eu

top=$(cd "$(dirname "$0")/../.." && pwd)
. "$top/bench/parts/parts.sh"
build_plain encode

if [ "$("$proved")" != "$("$plain")" ]; then
    echo "the two programs encode differently" >&2
    exit 1
fi

for _ in 1 2 3; do
    $pinned "$proved" encode | sed 's/^/proved /'
    $pinned "$plain" encode | sed 's/^/plain /'
done | awk '
    / ns a packet$/ {
        if (!(($1, $2) in least) || $3 < least[$1, $2]) least[$1, $2] = $3
    }
    function tell(work) {
        printf "%s: %d ns a packet, in plain Rust %d ns, ratio %.2f\n", work, least["proved", work], least["plain", work],
            least["proved", work] / least["plain", work]
    }
    END { tell("encode"); tell("complete_four") }'

#!/bin/sh
# Measures a word of which twenty bytes are missing beside a correction of ten wrong ones, on one core and in one run, and
# prints the least times. The status is 0 where it takes at most twice as long. How long `mend` takes where no symbol is
# missing is measured by `bench/commands/air.sh`.
# It wants the kit's `rt` where the program isn't built yet.
set -eu

top=$(cd "$(dirname "$0")/../.." && pwd)
. "$top/bench/parts/parts.sh"

# Each time the same rounds are done, so a sum of what came of them is the same.
for _ in 1 2 3; do
    $pinned "$proved" mend
done | awk '
    $1 == "sum" {
        if (name in sum && sum[name] != $2) differ = differ " " name
        sum[name] = $2
    }
    $3 == "ns" {
        name = $1
        if (!(name in least) || $2 < least[name]) least[name] = $2
    }
    END {
        word = least["mend"] / least["correct"]
        printf "20 missing: %.1f ns a word, a correction of 10 wrong %.1f ns, ratio %.2f\n", least["mend"], least["correct"], word
        if (differ != "") print "other bytes came of:" differ
        exit (differ != "" || word > 2) ? 1 : 0
    }'

#!/usr/bin/env bash
# Compares the program that the gate built, of the sources as they stand, with the released one, release/dtx: they have to be one, byte for
# byte, and release/sources has to tell what it was built of. Where the kit is another one than the released program was built with, the
# bytes may differ: then the black box is tried over the released program too, and the line of what was left out says so.
# The last line is `release: N passed, M failed`.

set -u
export LC_ALL=C
top=$(cd "$(dirname "${BASH_SOURCE[0]}")/.." && pwd) || exit 1
cd "$top" || exit 1
. ./build || exit 1
find_sources dtx
. checks/counting.sh

# The line of the kit, the checksum of each source, and that of the program.
are_told() {
    cmp -s <(source_sums && sha256sum -- "$released") <(tail -n +2 release/sources)
}

of_this_kit() {
    [[ $(head -n 1 release/sources) == "# built with $(rt version)" ]]
}

does_the_same() {
    checks/black_box.sh --released
}

holds 'the program that was built here is of other sources: run rt ci' is_current
holds 'release/sources does not tell these sources and release/dtx: run release/refresh' are_told
if cmp -s "$built" "$released"; then
    passed=$((passed + 1))
elif of_this_kit; then
    failed=$((failed + 1))
    echo 'FAILED: the program that was built here is not release/dtx: run release/refresh'
else
    holds 'the released program does not do what the black box asks' does_the_same
    echo "left out: that the program of this kit is release/dtx, byte for byte: that was $(head -n 1 release/sources | cut -c 3-)"
fi
counts release

#!/bin/sh
# make_stream.sh COUNT OUT: writes a transport stream of COUNT packets to try dtx on.
#
# Each packet has 188 bytes: 47 00 31 (PID 0x31), 10 plus the continuity counter, and 184 letters.
# The counter goes from 0 to 15 and round again, and the letters are those of the counter.

set -e
if [ $# -ne 2 ]; then
    echo "usage: make_stream.sh COUNT OUT" >&2
    exit 2
fi
count=$1
out=$2
piece=$(mktemp)
trap 'rm -f "$piece" "$piece.twice"' EXIT

# One turn of the counter: sixteen packets.
counter=0
while [ "$counter" -lt 16 ]; do
    letter=$(printf '\\%o' $((97 + counter)))
    printf '\107\000\061%b' "\\0$(printf '%o' $((16 + counter)))"
    printf '%184s' '' | tr ' ' "$letter"
    counter=$((counter + 1))
done >"$piece"

# Whole turns, doubled to 1.5 MB or to all that is wanted, and then repeated to the size.
turns=1
while [ "$turns" -lt 512 ] && [ "$((turns * 16))" -lt "$count" ]; do
    cat "$piece" "$piece" >"$piece.twice"
    mv "$piece.twice" "$piece"
    turns=$((turns * 2))
done
while cat "$piece" 2>/dev/null; do :; done | head -c "$((count * 188))" >"$out"

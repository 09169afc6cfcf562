#!/bin/sh
# from_an_encoder.sh OUT: writes a small multiplex such as an encoder makes at a constant rate, to try dtx on.
#
# It has 700 packets of 188 bytes. Of five packets three are of PID 0x31, one is of PID 0x34, and the last is a null packet,
# of PID 0x1FFF, which fills up the rate. Each of the first two counts its own packets, from 0 to 15 and round again, and has
# letters for its payload; a null packet has the byte 0xFF.

set -e
if [ $# -ne 1 ]; then
    echo "usage: from_an_encoder.sh OUT" >&2
    exit 2
fi
turn=$(mktemp)
trap 'rm -f "$turn"' EXIT

# packet B1 B2 COUNTER BYTE: a packet with these two bytes of its PID, in octal, that counter and that payload.
packet() {
    printf '\107%b%b%b' "\\0$1" "\\0$2" "\\0$(printf '%o' $((16 + $3)))"
    printf '%184s' '' | tr ' ' "$4"
}

# Sixteen times five packets: then the counters begin anew.
five=0
while [ "$five" -lt 16 ]; do
    packet 000 061 $(((3 * five) % 16)) v
    packet 000 061 $(((3 * five + 1) % 16)) v
    packet 000 061 $(((3 * five + 2) % 16)) v
    packet 000 064 "$five" a
    packet 037 377 0 '\377'
    five=$((five + 1))
done >"$turn"

# Nine such turns are 720 packets.
for _ in 1 2 3 4 5 6 7 8 9; do
    cat "$turn"
done | head -c $((700 * 188)) >"$1"

#!/usr/bin/env bash
# Draws the pictures of examples/pictures where matplotlib is installed: what a network of thirty-five transmitters left,
# one of them late, how a noisy capture is received, how the syncs of a capture stood, and figures and taps of a channel.
# Each transmitter's row, each mute and each slip has to be in the drawing.
# The last line is `pictures: N passed, M failed`.

set -u
export LC_ALL=C
top=$(cd "$(dirname "${BASH_SOURCE[0]}")/.." && pwd) || exit 1
room=$(mktemp -d) || exit 1
trap 'rm -rf "$room"' EXIT
cd "$room" || exit 1
export PATH=$top:$PATH MPLCONFIGDIR=$room/matplotlib
. "$top/checks/counting.sh"
said=said

# drawn NAME: both forms are there, of a size that fits a page, and the drawing is not empty.
drawn() {
    local wide high
    [[ -s $1.png && $(wc -c <"$1.svg") -gt 20000 ]] || return
    read -r wide high < <(sed -nE 's/^<svg .*width="([0-9]+)[.0-9]*pt" height="([0-9]+)[.0-9]*pt".*/\1 \2/p;
        s/.*width="([0-9]+)[.0-9]*pt" height="([0-9]+)[.0-9]*pt".*/\1 \2/p' "$1.svg" | head -n 1)
    ((wide > 300 && wide < 850 && high > 100 && high < 1200))
}

rows() {
    local address
    for address in $(sed -n 's/^address = //p' plan.toml); do
        grep -q ">$address</text>" network.svg || { echo "no row of $address"; return 1; }
    done
}

mutes() {
    local all
    all=$(cat tx-*.log | grep -c '^mute')
    ((all > 0 && all == $(grep -c 'id="mute-' network.svg)))
}

slips() {
    [[ $(cat slipped) =~ slips\ ([0-9]+)$ ]] && ((BASH_REMATCH[1] > 0 && BASH_REMATCH[1] == $(grep -c 'id="slip-' level.svg)))
}

plan() {
    sed '0,/^delay = 1000$/s//delay = 60000/' "$top/examples/thirty-five.toml"
    printf '[net]\nstream = "stream.ts"\nreceive = { from = 2, damage = [{ at = 500000, count = 3000, put = 7 }] }\n'
    for address in {1..35}; do
        printf '[[net.event]]\ndo = "send"\nto = %d\nfrom = %d\ncount = %d\n' "$address" $((20 * address)) $((1800 - 40 * address))
    done
}

# The python3 that the shell finds may be another one than the system's, which has the library from Debian's package.
drawn=
for python in python3 /usr/bin/python3; do
    if "$python" -c 'import matplotlib' 2>/dev/null; then
        plan >plan.toml
        dtx make 1 1872 stream.ts >said && dtx net plan.toml >said
        holds 'the picture of a network' "$python" "$top/examples/pictures/network.py" plan.toml network
        holds 'its size' drawn network
        holds 'a row for each transmitter' rows
        holds 'each mute' mutes
        dtx code stream.ts clean.sym >said && "$python" "$top/examples/capture.py" 1 26 5 clean.sym noisy.sym
        holds 'the picture of a reception' "$python" "$top/examples/pictures/reception.py" noisy.sym reception
        holds 'its size' drawn reception
        "$python" "$top/examples/capture.py" 5 20 6 clean.sym cut.sym --turned --constant 6 --cut 300000 300300 --cut 900000 900007
        dtx level cut.sym level.sym level.log >slipped
        holds 'the picture of a capture' "$python" "$top/examples/pictures/level.py" level.log level
        holds 'its size' drawn level
        holds 'each slip' slips
        printf '%s\t%s\t%s\t%s\n' dB one two three 14 0 9 5 15 8 9 9 >figures
        seq 48 -1 -48 | awk '{ print $1, ($1 == 0) - ($1 == 14) / 2 }' >taps
        holds 'the picture of a channel' "$python" "$top/examples/pictures/radio.py" figures taps radio
        holds 'its size' drawn radio
        drawn=yes
        break
    fi
done
[[ $drawn ]] || echo 'left out: the pictures: install python3-matplotlib'
counts pictures

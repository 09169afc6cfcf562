#!/usr/bin/env bash
# How many packets come back over a simulated channel, by the scripts of examples/radio, where GNU Radio is installed:
# radio.sh noise|echo|loss [PACKETS]. Prints a table with tabs; that of `noise` is drawn by examples/pictures/radio.py. All
# three take six minutes or so. Packets are counted from 1248 on, when each receiver has settled; the column of GNU Radio is
# its own equalizer and decoder behind the same front end. A packet of ours that is wrong without a flag ends the measure.
#
# noise  transmitter 7 alone, by decibels of the data symbols over the noise
# echo   transmitter 9 too, by its offset in ticks, level and phase; noise at 25 dB
# loss   three packets lost on the way to transmitter 9, which is 5 ticks late, by its level; noise at 20 dB

set -eu
table=${1-} packets=${2-6000}
if (($# > 2)) || ! [[ $table =~ ^(noise|echo|loss)$ && $packets =~ ^[1-9][0-9]{3,4}$ ]] || ((packets < 3000)); then
    echo 'usage: radio.sh noise|echo|loss [PACKETS], where PACKETS is 3000 to 99999' >&2
    exit 2
fi
. "$(dirname "${BASH_SOURCE[0]}")/../commands/timing.sh"
. "$top/examples/radio/chain.sh"
cd "$room"
settled=1248
lost=2000
seven=(--send tx-7.sym tx-7.log 0 0 0)

# row CELL..
row() {
    local IFS=$'\t'
    printf '%s\n' "$*"
}

# right [SYMBOLS]: how many packets are right; where no field sync is found, 0.
right() {
    local line
    if line=$(back $settled "$@" 2>faults); then
        cut -d ' ' -f 2 <<<"$line"
    elif grep -q 'no \(field \)\?sync$' faults; then
        echo 0
    else
        cat faults >&2
        return 1
    fi
}

# theirs_right: those of GNU Radio, some of which may be wrong.
theirs_right() {
    { "$gnuradio_python" "$radio/compare.py" net.feed theirs.ts $settled || true; } | cut -d ' ' -f 2
}

# cells: the three ways to receive.
cells() {
    printf '%d\t%d\t%d' "$(right front.sym)" "$(right)" "$(theirs_right)"
}
ways=('level, acquire, receive' 'equalize.py, acquire, receive' 'GNU Radio')

noise() {
    local decibels theirs=theirs.ts
    network "$packets" 0 ''
    row dB "${ways[@]}"
    for decibels in 30 20 18 17 16 15.5 15 14.5 14; do
        through "${seven[@]}" --noise "$decibels"
        row "$decibels" "$(cells)"
    done
}

echoes() {
    local ticks level degrees theirs=theirs.ts
    row ticks dB degrees "${ways[@]}"
    while read -r ticks level degrees; do
        network "$packets" "$ticks" "$(sends 9 0 "$packets")"
        through "${seven[@]}" --send tx-9.sym tx-9.log 0 "$level" "$degrees" --noise 25
        row "$ticks" "$level" "$degrees" "$(cells)"
    done <<<$'1 -6 0\n5 -20 0\n5 -12 0\n5 -6 0\n5 -3 0\n13 -6 180\n-9 -6 0\n-35 -10 0'
}

# lossy EVENTS LEVEL: how many packets are right where transmitter 9 has these events.
lossy() {
    network "$packets" 5 "$1"
    through "${seven[@]}" --send tx-9.sym tx-9.log 0 "$2" 0 --noise 20
    right
}

loss() {
    local level all before after restarted
    all=$(sends 9 0 "$packets")
    before=$(sends 9 0 $lost)
    after=$(sends 9 $((lost + 3)) $((packets - lost - 3)))
    restarted=$before$'\n[[net.event]]\ndo = "restart"\nto = 9\n'
    row dB 'nothing lost' 'three lost' 'three lost, restarted' 'off from there on'
    for level in -3 -8 -12 -16 -20 -24; do
        row "$level" "$(lossy "$all" "$level")" "$(lossy "$before"$'\n'"$after" "$level")" \
            "$(lossy "$restarted$after" "$level")" "$(lossy "$before" "$level")"
    done
}

if [[ $table == echo ]]; then
    echoes
else
    "$table"
fi

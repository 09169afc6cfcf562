#!/usr/bin/env bash
# From a stream through two transmitters, a channel and GNU Radio's front end back to packets: try.sh [PACKETS [FOLDER]]
#
# Transmitter 9 sends what transmitter 7 sends, 13 ticks later, which are 13.99 symbols, at -6 dB. Noise is 20 dB
# below, and the receiver's carrier and clock are off. The line tells how many packets came back right, how many are
# flagged, and how many are wrong without a flag, which makes the status 1. PACKETS is 1500 to 100000, 4000 if left out;
# FOLDER keeps the files.

set -eu
if (($# > 2)) || ! [[ ${1-4000} =~ ^[1-9][0-9]{3,5}$ ]] || ((${1-4000} < 1500 || ${1-4000} > 100000)); then
    echo 'usage: try.sh [PACKETS [FOLDER]], where PACKETS is 1500 to 100000' >&2
    exit 2
fi
. "$(dirname "${BASH_SOURCE[0]}")/chain.sh"
room=${2-$(mktemp -d)}
[[ ${2-} ]] || trap 'rm -rf "$room"' EXIT
mkdir -p -- "$room"
cd -- "$room"

packets=${1-4000}
network "$packets" 13 "$(sends 9 0 "$packets")"
through --send tx-7.sym tx-7.log 0 0 0 --send tx-9.sym tx-9.log 0 -6 180 --noise 20 --carrier 3000 --clock 5
printf 'sent %d ' "$packets"
back

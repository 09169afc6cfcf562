#!/usr/bin/env bash
# Measures `dtx dvb code` on a made stream of 200 MB, and `dtx dvb read` on what that writes. Beside them stand GNU
# Radio's blocks of DVB-T, whose outer coding is that of EN 300 429, where Debian's package `gnuradio` is installed.
# It says whether both give the same bytes and packets. The packets are also compared where eight bytes of each word
# are wrong. All of it is one run, on one processor where `taskset` is there, `dtx` the best of three and the other
# once. It needs 1 GB on the disk of temporary files. The status is 0 where the two are at least 25 and 20 times as
# fast and give the same, and where there is no GNU Radio.

set -eu
rounds=3
code_bar=25
read_bar=20
packets=1063832
block=204
# GNU Radio is slow, so it gets a part of the stream: groups of eight packets.
few_packets=106080
least_packets=800

. "$(dirname "${BASH_SOURCE[0]}")/../commands/timing.sh"
. "$top/bench/gnuradio/blocks.sh"
"$program" make 1 $packets "$room/in.ts" >"$room/said"
for ((round = 0; round < rounds; round++)); do
    measure 'dtx dvb code' "$room/in.dvb" "$program" dvb code "$room/in.ts" "$room/in.dvb"
done
for ((round = 0; round < rounds; round++)); do
    measure 'dtx dvb read' "$room/out.ts" "$program" dvb read "$room/in.dvb" "$room/out.ts"
done
printf 'best of %d%s\n' $rounds "${pinned[*]:+, on one processor}"
rate 'dtx dvb code' $packets "${best[dtx dvb code]}"
rate 'dtx dvb read' $packets "${best[dtx dvb read]}"

need_gnuradio
declare -A made=([code]=bytes [read]=packets)
status=0

by_gnuradio=("$gnuradio_python" "$top/bench/gnuradio/dvb.py")

# are_same WHAT FILE OTHER: says whether the other file, which isn't empty, is the first bytes of the file.
are_same() {
    local count
    count=$(stat -c %s "$3")
    if [[ $count != 0 ]] && cmp -s -n "$count" "$2" "$3"; then
        printf 'the %s are the same, %d bytes\n' "$1" "$count"
    else
        printf 'the %s differ\n' "$1"
        status=1
    fi
}

# beside KIND BAR IN SIZE OURS: measures GNU Radio on the first packets or blocks of IN, each of so many bytes, and compares what it gives
# with OURS.
beside() {
    local taken
    head -c $((few_packets * $4)) "$3" >"$room/few"
    head -c $((least_packets * $4)) "$3" >"$room/least"
    taken=$(without_start "$room/least" "$room/few" "$room/theirs" "${by_gnuradio[@]}" "$1")
    are_same "${made[$1]}" "$5" "$room/theirs"
    compared "dtx dvb $1" $packets $((few_packets - least_packets)) "$taken" "$2" || status=1
}

beside code $code_bar "$room/in.ts" 188 "$room/in.dvb"
beside read $read_bar "$room/in.dvb" $block "$room/out.ts"

# Eight bytes in a row of a block go to words of their own, so each of these has eight; there may be so many entries.
head -c $((few_packets * block)) "$room/in.dvb" >"$room/few"
awk -v blocks=100000 -v block=$block 'BEGIN {
    for (k = 0; k < blocks; k++) printf "[[damage]]\nat = %d\ncount = 8\nput = 0\n", block * k + 10
}' >"$room/eight.toml"
"$program" hurt "$room/few" "$room/eight.toml" "$room/hurt.dvb" >"$room/said"
"$program" dvb read "$room/hurt.dvb" "$room/out.ts" >"$room/said"
printf 'eight wrong bytes a word: %s\n' "$(cat "$room/said")"
"${by_gnuradio[@]}" read "$room/hurt.dvb" "$room/theirs" >"$room/said"
are_same packets "$room/out.ts" "$room/theirs"
exit $status

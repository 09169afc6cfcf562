#!/usr/bin/env bash
# Measures how much memory each command holds at most, over a stream of 31,200 packets, and the program without words.
# Each figure is the least of five runs: where the loader puts the program and its stack changes it by up to 250 kB.
# It needs 200 MB on the disk of temporary files. The status is 0 where each command holds at most its bar:
# - every command that isn't named below: what it held when each command had a loop of its own
# - `soft`, which holds a field, and `acquire`: 12 MB
# - `refine`: 4 MB, and 2 MB for each round
# - `level`: 3 MB
# - `mend`: twice the bar of `receive`
# - `repeat`: the bars of `receive` and `excite` together
# - `watch`: the bar of `excite`
# - the other outer coding: the bars of `adapt` and `receive`
# - `net` with 1,020 transmitters over a frame: 256 MB
# - `net` with 35 transmitters over a frame: the bar of `net` with one, and 8 MB more

set -eu
rounds=5
packets=31200

. "$(dirname "${BASH_SOURCE[0]}")/timing.sh"
cd "$room"

network in.ts $packets 1 >net.toml
network frame.ts 624 35 >net-35.toml
network frame.ts 624 1020 >net-1020.toml
printf '[[damage]]\nat = 1000\ncount = 1000\nput = 0\n' >damage.toml
"$program" make 1 $packets in.ts >said
"$program" make 1 624 frame.ts >said
"$program" adapt net.toml in.ts feed.ts >said
"$program" code in.ts in.sym >said

status=0
# holds BAR WORD..: says how many kB the program held at most with these words, and whether that is within the bar.
holds() {
    local bar=$1 least='' held round
    shift
    for ((round = 0; round < rounds; round++)); do
        held=$(memory "$program" "$@" | tail -n 1)
        [[ $least && $least -le $held ]] || least=$held
    done
    printf '%5d kB (bar: %d) %s\n' "$least" "$bar" "${*:-no words}"
    ((least <= bar)) || status=1
}

holds 1456
holds 2140 adapt net.toml in.ts out.ts
holds 1824 code in.ts out.sym
holds 2240 excite feed.ts 1 0 out.sym out.log
holds 2188 receive in.sym out.ts
holds 1568 make 1 $packets out.ts
holds 1944 hurt in.ts damage.toml out.ts
holds 2132 net net.toml
holds 10324 net net-35.toml
holds 262144 net net-1020.toml
holds 12288 soft in.sym out.sym
holds 12288 acquire 1 in.sym out.sym
for times in 1 8 32; do
    holds $((4096 + 2048 * times)) refine 1 $times in.sym out.sym
done
holds 3072 level in.sym out.sym out.log
holds 4376 mend in.sym out.ts
holds 4428 repeat in.sym 1 0 out.sym out.log
holds 2240 watch feed.ts out.txt
holds 2140 dvb code in.ts in.dvb
holds 2188 dvb read in.dvb out.ts
exit $status

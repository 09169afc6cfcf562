#!/usr/bin/env bash
# Measures these, in one run:
# - `dtx net` of three transmitters, each of which is given the whole feed of 31,200 packets, beside `dtx adapt` and
#   three times `dtx excite` of the same stream
# - `net` of 35 transmitters over two frames
# - `net` of 1,020 transmitters over a frame, beside three that are given as many packets together
# - the memory of each, and that of one transmitter over the two frames
# - `dtx hurt` of 200 MB, with one entry of damage and with 100,000, beside `cat`
#
# It runs on one processor where `taskset` is there, and takes the best of three. The stream of the 1,020, and that of
# the three beside them, has many placeholders at the beginning of each frame. So all thirty pages are told in time
# for most of it to be sent. It needs 2 GB on the disk of temporary files. The status is 0 where these bars hold:
# - 35 exciters need at most 8 MB more memory than one, and 1,020 need at most 256 MB.
# - With 1,020, a packet that is given takes at most 1.25 times as long as with three.
# - `net` of three takes at most 1.2 times as long as the commands beside it, where files stand in memory.

set -eu
rounds=3
memory_bar=8192
most_memory_bar=262144
time_bar=1.25
net_bar=1.2
packets=31200
few_packets=1248
most_transmitters=1020
frame=624
large_packets=1063830
most_entries=100000

. "$(dirname "${BASH_SOURCE[0]}")/timing.sh"
cd "$room"

# paged IN OUT: a stream in which each of the first 45 groups of a frame begins with a placeholder.
paged() {
    python3 - "$1" "$2" <<'end'
import sys
stream = bytearray(open(sys.argv[1], "rb").read())
for packet in range(0, len(stream) // 188, 4):
    if packet % 624 < 180:
        stream[188 * packet:188 * packet + 3] = b"\x47\x1f\xfa"
open(sys.argv[2], "wb").write(stream)
end
}

# set_aside: puts the files of the transmitters aside, empty. They aren't removed, since a file system that keeps the numbers of
# files that were just removed from new ones looks for others among all of them (ext4 does), file after file.
set_aside() {
    local away
    away=$(mktemp -d -p "$room")
    find . -maxdepth 1 -name 'tx-*' -exec truncate -s 0 {} + -exec mv -t "$away" {} +
}

# Three transmitters are given about as many packets as the 1,020.
beside_packets=$((most_transmitters / 3 * frame))
"$program" make 1 $packets in.ts >said
"$program" make 1 $few_packets few.ts >said
"$program" make 1 $large_packets large.ts >said
"$program" make 1 $beside_packets made.ts >said
paged made.ts beside.ts
head -c $((frame * 188)) beside.ts >frame.ts
rm made.ts
network in.ts $packets 3 >three.toml
network few.ts $few_packets 1 >one.toml
network few.ts $few_packets 35 >thirty-five.toml
network frame.ts $frame $most_transmitters >most-transmitters.toml
network beside.ts $beside_packets 3 >beside.toml
bytes=$((large_packets * 188))
printf '[[damage]]\nat = %d\ncount = 1000\nput = 0\n' $((bytes / 2)) >damage.toml
awk -v entries=$most_entries -v step=$((bytes / most_entries)) \
    'BEGIN { for (k = 0; k < entries; k++) printf "[[damage]]\nat = %.0f\ncount = 9\nput = 1\n", k * step }' >most.toml

for ((round = 0; round < rounds; round++)); do
    set_aside
    measure 'net of 3' net.feed "$program" net three.toml
    measure 'adapt' feed.ts "$program" adapt three.toml in.ts feed.ts
    measure 'excite' out.sym "$program" excite feed.ts 1 0 out.sym out.log
    set_aside
    measure 'net of 35' net.feed "$program" net thirty-five.toml
    set_aside
    measure 'net of 1,020' net.feed "$program" net most-transmitters.toml
    set_aside
    measure '3 beside' net.feed "$program" net beside.toml
    set_aside
    measure 'cat' none cat large.ts
    measure 'hurt' out.ts "$program" hurt large.ts damage.toml out.ts
    measure 'hurt at most' out.ts "$program" hurt large.ts most.toml out.ts
done

# line NAME BYTES WHAT: the time under the name, and how many MB a second of so many bytes that is.
line() {
    awk -v name="$1" -v bytes="$2" -v what="$3" -v time="${best[$1]}" \
        'BEGIN { printf "%-14s %7.3f s %6.1f MB/s of %s\n", name, time / 1e6, bytes / time, what }'
}

printf 'best of %d%s\n' $rounds "${pinned[*]:+, on one processor}"
line 'net of 3' $((packets * 188)) 'feed, each packet given three times'
line 'adapt' $((packets * 188)) 'feed'
line 'excite' $((packets * 188)) 'feed'
line 'net of 35' $((few_packets * 188)) 'feed, each packet given 35 times'
line 'net of 1,020' $((frame * 188)) "feed, each packet given $most_transmitters times"
line '3 beside' $((beside_packets * 188)) 'feed, each packet given three times'
line 'cat' $bytes 'file'
line 'hurt' $bytes "file, one entry"
line 'hurt at most' $bytes "file, $most_entries entries"
net_time=0
within 'net of 3' $net_bar adapt excite excite excite || net_time=1
awk -v hurt="${best[hurt]}" -v cat="${best[cat]}" 'BEGIN { printf "hurt takes %.2f times as long as cat\n", hurt / cat }'

per_packet() {
    awk -v time="${best[$1]}" -v given=$2 'BEGIN { printf "%.3f", time / given }'
}
most_time=$(per_packet 'net of 1,020' $((most_transmitters * frame)))
few_time=$(per_packet '3 beside' $((3 * beside_packets)))
time_ratio=$(awk -v most="$most_time" -v few="$few_time" 'BEGIN { printf "%.2f", most / few }')
printf 'a packet that is given takes %s microseconds with %d transmitters, and %s with 3: %s times as long (bar: %s)\n' \
    "$most_time" $most_transmitters "$few_time" "$time_ratio" $time_bar

three=$(memory "$program" net three.toml)
one=$(memory "$program" net one.toml)
many=$(memory "$program" net thirty-five.toml)
most=$(memory "$program" net most-transmitters.toml)
printf 'memory of net: %d kB with 3 transmitters over %d packets; over %d packets %d kB with one and %d kB with 35, %d kB more (bar: %d kB)\n' \
    "$three" $packets $few_packets "$one" "$many" $((many - one)) $memory_bar
printf 'memory of net: %d kB with %d transmitters over %d packets (bar: %d kB), %d kB for each but the first\n' \
    "$most" $most_transmitters $frame $most_memory_bar $(((most - one) / (most_transmitters - 1)))
((many - one <= memory_bar && most <= most_memory_bar && net_time == 0))
awk -v ratio="$time_ratio" -v bar=$time_bar 'BEGIN { exit ratio > bar }'

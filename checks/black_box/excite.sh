# What an exciter sends, and its log. The numbers and digests are those of a program that shares nothing with dtx.

# has_log LINE..: the log has just these lines.
has_log() {
    printf '%s' "${1:+$(printf '%s\n' "$@")}${1:+$'\n'}" | cmp -s - out.log || wrong "the log is '$(tr '\n' ';' <out.log)'"
}

start 'an exciter that is given a feed from its start on'
run 0 'packets 1300 segments 1204 presets 4 mutes 0 loose 0' excite "$room/feed.ts" 7 1000 out.sym out.log
has_digest out.sym d053d41c45f273e3e262b297d5fa7c7df44adbfb998e9210481653691e0f1178
has_digest out.log 42071eb44f95e818bfcf4eb4a16103cb4638dc713e3a49989c7d8621846571f4
has_log 'preset 0 0 100 5078070 640' 'preset 313 0 412 5320042 612' 'preset 626 1 100 5562013 640' 'preset 939 1 412 5803985 612'
leaves out.sym out.log

start 'what it sends is what follows its first order in the symbols of the feed'
run 0 'packets 1300 segments 1305 loose 0' code "$room/feed.ts" feed.sym
tail -c 1001728 feed.sym >wanted.sym
run 0 'packets 1300 segments 1204 presets 4 mutes 0 loose 0' excite "$room/feed.ts" 7 1000 out.sym out.log
cmp -s wanted.sym out.sym || wrong 'out.sym is not the end of the symbols'

start 'an exciter that is given a long feed'
run 0 'packets 31200' make 1 31200 in.ts
run 0 'packets 31200 filled 100 loose 0' adapt "$plan" in.ts feed.ts
run 0 'packets 31200 segments 31199 presets 100 mutes 0 loose 0' excite feed.ts 9 2000 out.sym out.log
has_digest out.sym 10d13b6c55125cace8fd1b80c2fdd53db492fe62fb49d4ad8a428f6351a13248
has_digest out.log e9d561f25b9e6f450c4413d8a04a5a268b471630a1d0db76ce9cbe656ccde015

# Two transmitters are given one feed: the symbols are the same, and the moments differ by their offsets.
start 'the other transmitter sends the same 35 ticks later'
run 0 'packets 1300 segments 1204 presets 4 mutes 0 loose 0' excite "$room/feed.ts" 9 2000 out.sym out.log
has_digest out.sym d053d41c45f273e3e262b297d5fa7c7df44adbfb998e9210481653691e0f1178
has_log 'preset 0 0 100 5078105 640' 'preset 313 0 412 5320077 612' 'preset 626 1 100 5562048 640' 'preset 939 1 412 5804020 612'

# An order counts where its group begins 52 packets behind the mark or later, by whichever of its packets carries it, and a first group
# is sent without a field sync.
while read -r packets spoils segments log; do
    start "$packets packets with placeholders $spoils"
    given "$packets" 0
    for each in ${spoils//,/ }; do
        spoil "$each" 47 1ffa
    done
    run 0 "packets $packets filled $(tr ',' '\n' <<<"$spoils" | wc -l) loose 0" adapt "$plan" ../inputs/given.ts feed.ts
    run 0 "packets $packets segments $segments presets $((segments > 0)) mutes 0 loose 0" excite feed.ts 7 1000 out.sym out.log
    has_log ${log:+"$log"}
    run 0 "packets $packets segments $((packets + (packets + 311) / 312)) loose 0" code feed.ts feed.sym
    tail -c $((segments * 832)) feed.sym | cmp -s - out.sym || wrong "out.sym is not the last $segments segments"
done <<'end'
60 48 0
60 51 0
60 52 8 preset 0 0 52 5040962 1372
60 55 8 preset 0 0 52 5040962 1372
60 53,55 8 preset 0 0 52 5040962 1372
60 48,52 8 preset 0 0 52 5040962 1372
320 312 8 preset 0 0 312 5242735 85
end

start 'orders whose indexes are not their places do not count, and a lock out of step is lost at its second due mark that is missing'
head -c $((10 * 188)) "$room/feed.ts" >in.ts
tail -c +$((11 * 188 + 1)) "$room/feed.ts" >>in.ts
run 0 'packets 1299 segments 0 presets 0 mutes 1 loose 0' excite in.ts 7 1000 out.sym out.log
has_log 'mute 0 cadence'

# sync_of INDEX BYTE: that packet of in.ts begins with the byte, in hexadecimal.
sync_of() {
    printf '%b' "\\x$2" | dd of=in.ts bs=188 seek="$1" conv=notrunc status=none
}

# A packet's sync byte isn't coded, so what is sent is the same to the byte.
for marks in 624:47 624:00 1248:46 624:47,625:b8 1:b8,99:b8,100:b8,623:b8,1299:b8 624:47,312:b8,936:b8,1247:b8; do
    start "a lock outlives marks that are missing or stray: $marks"
    cp "$room/feed.ts" in.ts
    for each in ${marks//,/ }; do
        sync_of "${each%:*}" "${each#*:}"
    done
    run 0 'packets 1300 segments 1204 presets 4 mutes 0 loose 0' excite in.ts 7 1000 out.sym out.log
    has_digest out.sym d053d41c45f273e3e262b297d5fa7c7df44adbfb998e9210481653691e0f1178
    has_digest out.log 42071eb44f95e818bfcf4eb4a16103cb4638dc713e3a49989c7d8621846571f4
done

start 'two due marks in a row that are missing lose a lock'
cp "$room/feed.ts" in.ts
sync_of 624 47
sync_of 1248 47
run 0 'packets 1300 segments 1151 presets 4 mutes 1 loose 0' excite in.ts 7 1000 out.sym out.log
has_log 'preset 0 0 100 5078070 640' 'preset 313 0 412 5320042 612' 'preset 626 1 100 5562013 640' 'preset 939 1 412 5803985 612' \
    'mute 1151 cadence'

start 'a lock outlives the loss of packets that moves the marks, until two of them were due'
head -c $((202 * 188)) "$room/feed.ts" >in.ts
tail -c +$((624 * 188 + 1)) "$room/feed.ts" >>in.ts
run 0 'packets 878 segments 778 presets 1 mutes 0 loose 0' excite in.ts 7 1000 out.sym out.log
has_log 'preset 0 0 100 5078070 640'

start 'a lock out of step is lost, and begins again at the third mark that is unchanged'
run 0 'packets 4000' make 1 4000 long.ts
run 0 'packets 4000 filled 13 loose 0' adapt "$plan" long.ts long.feed
head -c $((202 * 188)) long.feed >in.ts
tail -c +$((624 * 188 + 1)) long.feed >>in.ts
run 0 'packets 3578 segments 3185 presets 8 mutes 1 loose 0' excite in.ts 7 1000 out.sym out.log
has_log 'preset 0 0 100 5078070 640' 'mute 1151 cadence' 'preset 1151 3 100 6529901 640' 'preset 1464 3 412 6771873 612' \
    'preset 1777 4 100 7013845 640' 'preset 2090 4 412 7255817 612' 'preset 2403 5 100 7497789 640' \
    'preset 2716 5 412 7739761 612' 'preset 3029 6 100 7981733 640'
has_digest out.sym 27c21970cb1c5d962e30e5fb1cc4891f27b5202560411aa776222b57211256cd
run 0 'packets 4000 segments 4013 loose 0' code long.feed feed.sym
tail -c $(((3185 - 1151) * 832)) feed.sym | cmp -s - <(tail -c +$((1151 * 832 + 1)) out.sym) || wrong 'out.sym does not end like the feed'

start 'the greatest delay that is not late'
run 0 'packets 1300 segments 1204 presets 4 mutes 0 loose 0' excite "$room/feed.ts" 7 4999990 out.sym out.log
has_digest out.sym d053d41c45f273e3e262b297d5fa7c7df44adbfb998e9210481653691e0f1178

start 'a delay that is late'
run 0 'packets 1300 segments 0 presets 0 mutes 4 loose 0' excite "$room/feed.ts" 7 4999991 out.sym out.log
has_log 'mute 0 late' 'mute 0 late' 'mute 0 late' 'mute 0 late'
[[ -f out.sym && ! -s out.sym ]] || wrong 'out.sym is not empty'

start 'an address that no order lists'
run 0 'packets 1300 segments 0 presets 0 mutes 4 loose 0' excite "$room/feed.ts" 8 0 out.sym out.log
has_log 'mute 0 unlisted' 'mute 0 unlisted' 'mute 0 unlisted' 'mute 0 unlisted'

start 'a feed of nothing, of a packet and some bytes, and of what is no feed'
: >in.ts
run 0 'packets 0 segments 0 presets 0 mutes 0 loose 0' excite in.ts 7 0 out.sym out.log
head -c 193 "$room/feed.ts" >in.ts
run 0 'packets 1 segments 0 presets 0 mutes 0 loose 5' excite in.ts 7 0 out.sym out.log
head -c 100000 "$room/feed.sym" >in.ts
run 0 'packets 531 segments 0 presets 0 mutes 0 loose 172' excite in.ts 7 0 out.sym out.log
[[ -f out.sym && ! -s out.sym && -f out.log && ! -s out.log ]] || wrong 'out.sym or out.log is not empty'

start 'symbols and a log replace older ones'
cp ../inputs/long.ts out.sym
cp ../inputs/long.ts out.log
run 0 'packets 1300 segments 1204 presets 4 mutes 0 loose 0' excite "$room/feed.ts" 7 1000 out.sym out.log
has_digest out.sym d053d41c45f273e3e262b297d5fa7c7df44adbfb998e9210481653691e0f1178
has_digest out.log 42071eb44f95e818bfcf4eb4a16103cb4638dc713e3a49989c7d8621846571f4

# excites_changed FEED ADDRESS DELAY: its first operations packet is changed in each way of the rows of the standard input, which tell the
# changes, how many segments, presets and mutes an exciter of that address and delay has then, each mute an unlisted one, and its first preset.
excites_changed() {
    local changes segments presets mutes first change
    while read -r changes segments presets mutes first; do
        for change in ${changes//,/ }; do
            start "the first operations packet of ${1##*/} with another $change"
            "$top/checks/independent/lies.py" "$1" "$change" in.ts || wrong 'the change is another one'
            run 0 "packets 1300 segments $segments presets $presets mutes $mutes loose 0" excite in.ts "$2" "$3" out.sym out.log
            [[ $(grep -m 1 preset out.log) == "$first" ]] || wrong "the first preset is '$(grep -m 1 preset out.log)'"
            (($(grep -c mute out.log) == mutes && $(grep -c unlisted out.log) == mutes)) || wrong "the log is '$(tr '\n' ';' <out.log)'"
        done
    done
}

# Up to ten wrong bytes of it are put right; else it doesn't read, or is of another place, or lists another transmitter, and the next order
# is the first.
excites_changed "$room/feed.ts" 7 1000 <<'end'
ten 1204 4 0 preset 0 0 100 5078070 640
pid,eleven,kind,third,pad,stamp,delay,index,count,twice,fill,place 891 3 0 preset 0 0 412 5320042 612
address 891 3 1 preset 0 0 412 5320042 612
end

# Random lives that end with a feed, unchanged from a mark on.
start 'the headline, from whatever earlier state'
"$top/checks/independent/lockstep.py" "$dtx" 80 >"$room/said" || wrong "$(grep FAILED "$room/said" | head -n 3)"

# Random lists of feed packets, foreign ones, spoiled ones, and marks that are missing or stray.
start 'random lists of packets'
"$top/checks/independent/exciter.py" "$dtx" 240 >"$room/said" || wrong "$(grep FAILED "$room/said" | head -n 3)"

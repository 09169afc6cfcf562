# Captures of any gain and polarity, levelled. The lines and digests are those of programs that share nothing with dtx.

# at GAIN CONSTANT [DIVISOR]: the symbols of the standard input at so many steps a unit, and with the constant, divided and rounded down.
at() {
    python3 -c 'import sys
gain, constant, divisor = map(int, sys.argv[1:])
made = bytes((gain * ((byte ^ 128) - 128) + constant) // divisor & 255 for byte in range(256))
sys.stdout.buffer.write(sys.stdin.buffer.read().translate(made))' "$1" "$2" "${3-1}"
}

# part FILE FROM COUNT: so many bytes of the file from that one on, or all where COUNT is left out.
part() {
    tail -c +$(($2 + 1)) "$room/level/$1" | head -c "${3-$(stat -c %s "$room/level/$1")}"
}

# syncs FIRST END GAIN CONSTANT MOVED: the lines of the syncs FIRST to END - 1 of the symbols of the feed, without noise, and so many symbols
# later.
syncs() {
    local number
    for ((number = $1; number < $2; number++)); do
        printf 'sync %d %d %d %d 0;' $((260416 * number + ${5-0})) $((number % 2 + 1)) "$3" "$4"
    done
}

# levels TITLE LINE LOG: the capture of the standard input becomes what the file descriptor 9 has, with that line; the lines of the log stand
# in front of a semicolon each.
levels() {
    local lines
    start "a capture levelled: $1"
    cat >in.sym
    cat <&9 >wanted.sym
    run 0 "$2" level in.sym out.sym out.log
    cmp -s wanted.sym out.sym || wrong 'out.sym has other symbols'
    IFS=';' read -ra lines <<<"$3"
    has_log "${lines[@]}"
    leaves in.sym wanted.sym out.sym out.log
}

mkdir "$room/level"
cp "$room/feed.sym" "$room/level/sent"
at 8 0 <"$room/feed.sym" >"$room/level/eight"
at 3 4 <"$room/feed.sym" >"$room/level/three"
at -5 2 <"$room/feed.sym" >"$room/level/turned"
for gain in 16 -16 -3; do
    head -c 832 "$room/feed.sym" | at $gain 0 >"$room/level/$gain"
done
all='symbols 1085760 syncs 5 slips 0'

# ---- Without noise ----

levels 'one at eight steps a unit is left as it is' "$all" "$(syncs 0 5 800 0)" <"$room/level/eight" 9<"$room/level/eight"
levels 'at three steps, and with a constant' "$all" "$(syncs 0 5 300 400)" <"$room/level/three" 9<"$room/level/eight"
levels 'inverted' "$all" "$(syncs 0 5 -500 200)" <"$room/level/turned" 9<"$room/level/eight"
levels 'behind 100 of nothing' 'symbols 1085860 syncs 5 slips 0' "$(syncs 0 5 300 400 100)" \
    < <(zeros 100 && part three 0) 9< <(zeros 100 && part eight 0)
levels 'behind 600,000 of nothing, more than is read at once' 'symbols 1685760 syncs 5 slips 0' "$(syncs 0 5 300 400 600000)" \
    < <(zeros 600000 && part three 0) 9< <(zeros 600000 && part eight 0)
levels 'some are lost' 'symbols 1085460 syncs 5 slips 1' "$(syncs 0 2 300 400)$(syncs 2 5 300 400 -300)" \
    < <(part three 0 300000 && part three 300300) 9< <(part eight 0 300000 && part eight 300300)
levels 'some came twice' 'symbols 1086060 syncs 5 slips 1' "$(syncs 0 2 300 400)$(syncs 2 5 300 400 300)" \
    < <(part three 0 300300 && part three 300000) 9< <(part eight 0 300300 && part eight 300000)
levels 'a hidden sync' 'symbols 1085760 syncs 4 slips 0' "$(syncs 0 2 300 400)$(syncs 3 5 300 400)" \
    < <(part three 0 520832 && zeros 832 && part three 521664) \
    9< <(part eight 0 520832 && zeros 832 | tr '\0' '\365' && part eight 521664)
levels 'the first sync is hidden' 'symbols 1085760 syncs 4 slips 0' "$(syncs 1 5 300 400)" \
    < <(zeros 832 && part three 832) 9< <(zeros 260416 && part eight 260416)
levels 'its end comes before the next sync is due' 'symbols 261247 syncs 1 slips 0' 'sync 0 1 800 0 0;' \
    < <(part eight 0 832 && part -3 0 && zeros 259583) 9< <(part eight 0 832 && part -3 0 && zeros 259583)
levels 'its end comes behind a due sync, so another one is looked for' 'symbols 261248 syncs 2 slips 1' \
    'sync 0 1 800 0 0;sync 832 1 -300 0 0;' \
    < <(part eight 0 832 && part -3 0 && zeros 259584) 9< <(part eight 0 832 && part eight 0 832 && zeros 259584)
levels 'halves of a step go up' 'symbols 838 syncs 1 slips 0' 'sync 0 1 1600 0 0;' \
    < <(part 16 0 && printf '\1\377\3\375\177\200') 9< <(part eight 0 832 && printf '\1\0\2\377\100\300')
levels 'halves of a step go up, inverted' 'symbols 838 syncs 1 slips 0' 'sync 0 1 -1600 0 0;' \
    < <(part -16 0 && printf '\1\377\3\375\177\200') 9< <(part eight 0 832 && printf '\0\1\377\2\301\100')
levels 'one symbol of a sync is off by ten steps' 'symbols 832 syncs 1 slips 0' 'sync 0 1 800 2 100;' \
    < <(part eight 0 11 && printf '\62' && part eight 12 820) 9< <(part eight 0 11 && printf '\62' && part eight 12 820)
levels 'what is beyond 127 is cut off' 'symbols 834 syncs 1 slips 0' 'sync 0 1 100 0 0;' \
    < <(head -c 832 "$room/feed.sym" && printf '\20\357') 9< <(part eight 0 832 && printf '\177\201')

# OTHERS of the 515 signs of a sync are others, at so many steps a unit, and the rest are right, at so many. At most 128 may be others, and the
# gain has to be above 0 then. At least 387 may, and it has to be below 0 then.
while read -r others steps rest line; do
    start "a capture levelled: $others other signs at $steps steps a unit, the rest at $rest"
    head -c 832 "$room/feed.sym" | python3 -c 'import sys
others, steps, rest = map(int, sys.argv[1:])
sent = [(byte ^ 128) - 128 for byte in sys.stdin.buffer.read()]
made = [-steps * symbol if place < others else rest * symbol for place, symbol in enumerate(sent)]
sys.stdout.buffer.write(bytes(symbol & 255 for symbol in made))' "$others" "$steps" "$rest" >in.sym
    [[ $("$top/checks/independent/level.py" level in.sym wanted.sym wanted.log) == "$line" ]] || wrong 'the independent program says another line'
    status=0
    [[ $line != 'no sync' ]] || status=10
    run "$status" "$line" level in.sym out.sym out.log
    cmp -s wanted.sym out.sym || wrong 'out.sym has other symbols'
    cmp -s wanted.log out.log || wrong "out.log is $(<out.log)"
done <<'end'
128 1 1 symbols 832 syncs 1 slips 0
129 1 1 no sync
386 1 1 no sync
387 1 1 symbols 832 syncs 1 slips 0
128 3 1 symbols 832 syncs 1 slips 0
128 4 1 no sync
387 1 3 symbols 832 syncs 1 slips 0
387 1 4 no sync
end

# From symbol 600,000 on it is inverted, which the fourth sync tells. Up to there the third one counts: of -5 s + 2 that makes 8 (-5 s - 2) / 3,
# rounded.
start 'a capture levelled: it changes within a field'
{ part three 0 600000 && part turned 600000; } >in.sym
run 0 "$all" level in.sym out.sym out.log
{ part eight 0 600000 && part sent 600000 181248 | at -80 -29 6 && part eight 781248; } >wanted.sym
cmp -s wanted.sym out.sym || wrong 'out.sym has other symbols'
IFS=';' read -ra lines <<<"$(syncs 0 3 300 400)$(syncs 3 5 -500 200)"
has_log "${lines[@]}"

# ---- Without a sync ----

while IFS='|' read -r shows given; do
    start "a capture levelled: no sync: $shows"
    eval "$given" >in.sym
    cp ../inputs/long.ts out.log
    run 10 'no sync' level in.sym out.sym out.log
    are_empty out.sym out.log
    leaves in.sym out.sym out.log
done <<'end'
nothing|:
2,000 of nothing|zeros 2000
a symbol too few|part eight 0 831
a sync without its first symbol|part eight 1 831
the data of a field|part three 832 259584
end

# ---- With noise ----

# levelled WORDS LINE CAPTURE MADE LOG ALONE ACQUIRED SEGMENTS RECEIVED PACKETS: of a capture with noise, which `capture.py` makes of the
# symbols of the feed by those words, how it is levelled, and what is acquired and received of that. `acquire` alone answers ALONE of it, or
# finds no packet where that is empty. CAPTURE, MADE, LOG, SEGMENTS and PACKETS are digests, the others lines.
levelled() {
    local scale decibels seed changes
    start "a capture with noise levelled: $1"
    read -r scale decibels seed changes <<<"$1"
    # shellcheck disable=SC2086
    "$top/examples/capture.py" "$scale" "$decibels" "$seed" "$room/feed.sym" in.sym $changes
    has_digest in.sym "$3"
    if [[ ${6-} ]]; then
        run 10 "$6" acquire 8 in.sym alone.sym
    else
        "$dtx" acquire 8 in.sym alone.sym >"$room/said" && "$dtx" receive alone.sym alone.ts >"$room/said"
        [[ $(cat "$room/said") =~ packets\ ([0-9]+)\ fixed\ 0\ flagged\ ([0-9]+) ]] && ((BASH_REMATCH[1] == BASH_REMATCH[2])) ||
            wrong "of what is acquired alone: $(cat "$room/said")"
    fi
    run 0 "$2" level in.sym out.sym out.log
    has_digest out.sym "$4"
    has_digest out.log "$5"
    run 0 "$7" acquire 8 out.sym found.sym
    has_digest found.sym "$8"
    run 0 "$9" receive found.sym out.ts
    has_digest out.ts "${10}"
}

levelled '6 16 16 --constant 8 --front 5000' 'symbols 1090760 syncs 5 slips 0' \
    9f4eeace6bb67d05d0e8acb557a990d4b665ebd00f2a0b1f797833cfc53c1ffc \
    3752aa3c02d97f1e384eec6e14ca7d2a76fd87f0b71b761f5980bf43af932e22 \
    de2edda4bca69a5e00e7a0a211cbc8d5013f7756fc01b7b2316edc350a62882b '' \
    'symbols 1090760 runs 1 segments 1305 cost 36793815 loose 5000' \
    5b4373d0a803df54e5fcb97ebf4460d3bd22324ba12a58c5cb87fdc9467508b7 \
    'segments 1305 runs 1 packets 1249 fixed 130 flagged 0 loose 0' \
    c2621661d1fdb70783b472c351877cd188c28b896a075193a0b2c6f8fa310663
levelled '10 18 17 --turned --constant 12' 'symbols 1085760 syncs 5 slips 0' \
    db7bb59682c3a288d2f3e494ffdf3a6330eadab25513db5876a45dc9534c2b7f \
    fae3e0a300a4b27470fcfdd4fb5f1774364cf5a69fc68e67e74fadd62d5eff7f \
    76c3f569db733f9c2c332f1127a4b9d9c671cdb64f445301748f473593f1132b 'no sync' \
    'symbols 1085760 runs 1 segments 1305 cost 23139511 loose 0' \
    d57a54e3dae0e772bfc799701288e1762940c32bda97b4d532f6b4aa2409434d \
    'segments 1305 runs 1 packets 1249 fixed 0 flagged 0 loose 0' \
    c2621661d1fdb70783b472c351877cd188c28b896a075193a0b2c6f8fa310663
levelled '4 18 18 --constant -5 --cut 300000 300300' 'symbols 1085460 syncs 5 slips 1' \
    6a501cdde4be89df47a4298f1678d30bd59ec747c966b2ebe70c15940feaac04 \
    dffb260a2667427e1f2792cc8978a86d69c74e369313d6f07e419237a89d9872 \
    ad5cff5aeb82393e7ad947778f1326f9ef2e920dfbacbdfd15a37b96d4f5f0b3 '' \
    'symbols 1085460 runs 2 segments 992 cost 17705777 loose 260116' \
    ad924e67b3c97ae793dbba43155ace1523ab2f3d52a666090e1633791fc53f7f \
    'segments 992 runs 1 packets 937 fixed 32 flagged 46 loose 0' \
    15696511968e8b1d8389c588f78c8d9b47a200e4841801481b2c09b29de0e3bf

start 'a capture with noise levelled: at eight steps a unit already'
"$top/examples/capture.py" 8 24 15 "$room/feed.sym" in.sym
has_digest in.sym 49695c5c492b33e15e4479c5880ef1f68804b7398c0465c874892312993b4f25
run 0 "$all" level in.sym out.sym out.log
cmp -s in.sym out.sym || wrong 'out.sym has other symbols'
has_log 'sync 0 1 799 5 2902' 'sync 260416 2 799 18 2978' 'sync 520832 1 800 -2 2800' 'sync 781248 2 800 -2 2910' \
    'sync 1041664 1 799 -4 2563'
run 0 'symbols 1085760 runs 1 segments 1305 cost 5835893 loose 0' acquire 8 out.sym found.sym
cmp -s "$room/feed.sym" found.sym || wrong 'found.sym has other symbols'
run 0 'segments 1305 runs 1 packets 1249 fixed 0 flagged 0 loose 0' receive found.sym out.ts
has_digest out.ts c2621661d1fdb70783b472c351877cd188c28b896a075193a0b2c6f8fa310663

start 'random captures that are levelled'
"$top/checks/independent/level.py" "$dtx" 32 >"$room/said" || wrong "$(grep FAILED "$room/said" | head -n 3)"

# ---- Refusals ----

start 'levelled symbols and a log replace older ones'
head -c 832 "$room/feed.sym" >in.sym
cp ../inputs/long.ts out.sym
cp ../inputs/long.ts out.log
run 0 'symbols 832 syncs 1 slips 0' level in.sym out.sym out.log
part eight 0 832 | cmp -s - out.sym || wrong 'out.sym has other symbols'
has_log 'sync 0 1 100 0 0'

refuses_symbols_and_log "$room/level/three" "$room/level/eight" level
rm -r "$room/level"

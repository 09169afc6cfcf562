# Files of a few packets, symbols or bytes, each with all that is printed and written. What that must be is written here.

# headed LOOSE HEAD..: packets that begin with these bytes, in hexadecimal, and are zeros behind them; and so many zeros behind the last.
headed() {
    local loose=$1 head
    shift
    for head in "$@"; do
        printf '%b' "$(sed 's/../\\x&/g' <<<"$head")"
        zeros $((188 - ${#head} / 2))
    done
    zeros "$loose"
}

# many COUNT HEAD: the head so many times.
many() {
    local index
    for ((index = 0; index < $1; index++)); do
        printf '%s ' "$2"
    done
}

# has_sync FILE COUNT PLACE: the file has so many bytes, and at that place a data segment sync begins, 5, -5, -5, 5 (ATSC A/53 Part 2).
has_sync() {
    [[ $(stat -c %s "$1") == "$2" ]] || wrong "$1 has $(stat -c %s "$1") bytes"
    [[ $(od -An -tx1 -j "$3" -N 4 "$1") == ' 05 fb fb 05' ]] || wrong "$1 has no sync at $3"
}

# Two transmitters.
small='start = 0\nmax_delay = 5000000\n[[transmitter]]\naddress = 7\noffset = -10\ndelay = 1000\n'
small+='[[transmitter]]\naddress = 9\noffset = 25\ndelay = 2000\n'
printf '%b' "$small" >"$inputs/small.toml"
given 3 0

# Status and line of the words, behind which the input and the output stand; the heads of the packets of the input, its loose bytes, and the
# heads of the packets of the output.
while IFS='|' read -r status line words heads loose left; do
    start "packets $heads and $loose loose bytes: $line"
    # shellcheck disable=SC2086
    headed "$loose" $heads >in
    # shellcheck disable=SC2086
    run "$status" "$line" $words in out
    # shellcheck disable=SC2086
    headed 0 $left | cmp -s - out || wrong 'out is another file'
    leaves in out
done <<end
0|packets 0 filled 0 loose 0|adapt ../inputs/small.toml||0|
0|packets 1 filled 0 loose 5|adapt ../inputs/small.toml|47|5|b8
0|packets 3 filled 0 loose 2|adapt ../inputs/small.toml|47 47 47|2|b8 47 47
6|packet 5|adapt ../inputs/small.toml|47 47 47 47 47 48 47 47 47|0|b8 47 47 47
6|packet 2|place|47 47 46 47|0|47 47
0|packets 2 placed 0 bare 1 loose 7|place|47 47|7|47 47
0|packets 364 placed 1 bare 1 loose 0|place|$(many 364 471fff10)|0|$(many 52 471fff10)471ffa10 $(many 311 471fff10)
0|packets 317 placed 0 bare 1 loose 0|place|$(many 52 471fff10)471ffa10 $(many 264 471fff10)|0|$(many 52 471fff10)471ffa10 $(many 264 471fff10)
0|packets 3 segments 0 loose 2|code|47 47 47|2|
10|no sync|receive||1665|
end

start 'four packets without a mark are not sent'
headed 2 00 00 00 00 >in
run 0 'packets 4 segments 0 presets 0 mutes 0 loose 2' excite in 7 0 out.sym out.log
are_empty out.sym out.log

# A whole group is coded behind a field sync, also before a refused packet.
while IFS='|' read -r status line loose heads; do
    start "packets $heads that are coded: $line"
    # shellcheck disable=SC2086
    headed "$loose" $heads >in
    run "$status" "$line" code in out.sym
    has_sync out.sym 4160 0
    has_sync out.sym 4160 832
done <<'end'
0|packets 5 segments 5 loose 2|2|b8 47 47 47 47
6|packet 4|2|47 47 47 47 46
end

start 'the packets before a refused one are sent as blocks'
headed 0 47 47 47 47 47 48 47 >in
run 6 'packet 5' dvb code in out
[[ $(stat -c %s out) == 1020 ]] || wrong "out has $(stat -c %s out) bytes"

# Changes to the bytes 1, 2, 3, 4.
while IFS='|' read -r changes status line left; do
    start "four bytes with $changes: $line"
    printf '\1\2\3\4' >in
    printf '%s' "$changes" >changes.toml
    run "$status" "$line" hurt in changes.toml out
    printf '%b' "$left" | cmp -s - out || wrong "out is $(od -An -tx1 out)"
done <<'end'
damage = []|0|bytes 4 damaged 0|\x01\x02\x03\x04
damage = [{ at = 1, count = 2, put = -1 }]|0|bytes 4 damaged 2|\x01\xff\xff\x04
damage = [{ at = 0, put = 5 }, { at = 3, count = 2, put = 6 }]|9|out of air 1|\x05\x02\x03\x06
end

# Of 64 packets 52, 56 and 60 are placeholders: their groups carry the pages 0, 1 and 0, and the addresses 134 and 135 stand on page 1.
# Segment n begins 1189760 n grains of 1/1539 tick behind the feed's start and the maximum delay, and packet 52 is data segment 53 of the
# first field.
while IFS='|' read -r address line log; do
    start "address $address of a network with two pages: $line"
    plan_of 100 36 >plan.toml
    # shellcheck disable=SC2046
    headed 0 $(many 52 470000)471ffa $(many 3 470000)471ffa $(many 3 470000)471ffa $(many 3 470000) >in
    run 0 'packets 64 filled 3 loose 0' adapt plan.toml in feed
    run 0 "packets 64 segments $line loose 0" excite feed "$address" 0 out.sym out.log
    IFS=';' read -ra lines <<<"$log"
    has_log "${lines[@]}"
done <<'end'
100|12 presets 3 mutes 0|preset 0 0 52 5040972 1372;preset 4 0 56 5044065 285;preset 8 0 60 5047157 737
134|8 presets 2 mutes 0|preset 0 0 56 5044065 285;preset 4 0 60 5047157 737
8|0 presets 0 mutes 2|mute 0 unlisted;mute 0 unlisted
end

# A field sync begins with 1001 and the 511 bits of PN511 (ATSC A/53 Part 2), which stand here four to a digit, with a bit 0 behind the last.
pn511=017fcaae66889e1d7d353b3a458f2147cf514c31043f0540cfeea966377b4a4e
pn511+=717434fb15bcdaed96dc92e397a3584df12bc6508c1efd6ac991dc2d06c0901c
sync=1001
for ((index = 0; index < 128; index++)); do
    digit=$((16#${pn511:index:1}))
    sync+=$((digit / 8))$((digit / 4 % 2))$((digit / 2 % 2))$((digit % 2))
done

# signs PLUS MINUS: the 515 symbols with which a field sync begins, a byte for each, in octal digits.
signs() {
    printf '%b' "$(sed "s/1/+/g; s/0/-/g; s/+/\\\\0$1/g; s/-/\\\\0$2/g" <<<"${sync:0:515}")"
}

# Behind them stand 317 zeros, which the rest of the sync would be, and two symbols. At three steps a unit a plus is 15 more than the constant, 4,
# and a minus as much less; a zero then is -4, and -11 at eight steps, of 10.67. Of the 63 symbols that tell the field 32 are plus ones in a
# first field.
while read -r shows plus minus last line zero ends; do
    start "a field sync of 515 symbols, levelled: ${shows//_/ }"
    { signs "$plus" "$minus" && zeros 317 && printf '%b' "$last"; } >in
    run 0 'symbols 834 syncs 1 slips 0' level in out.sym out.log
    { signs 50 330 && zeros 317 | tr '\0' "$zero" && printf '%b' "$ends"; } | cmp -s - out.sym || wrong "out.sym is $(od -An -tx1 out.sym)"
    has_log "sync 0 ${line//_/ }"
    leaves in out.sym out.log
done <<'end'
with_a_constant 23 365 \0023\0000 2_300_400_0 \365 \0050\0365
with_one_below_0 13 355 \0013\0000 1_300_-400_0 \013 \0050\0013
inverted 365 23 \0365\0000 1_-300_400_0 \013 \0050\0013
end
start 'symbols of which no field sync stands whole, levelled'
{ signs 50 330 && zeros 316; } >in
run 10 'no sync' level in out.sym out.log
are_empty out.sym out.log

start 'a transmitter that was given a part of a group is restarted'
printf '%b[net]\nstream = "s.ts"\n' "$small" >plan.toml
printf '[[net.event]]\ndo = "send"\nto = 9\nfrom = 0\ncount = 3\n[[net.event]]\ndo = "restart"\nto = 9\n' >>plan.toml
zeros 752 | tr '\0' '\107' >s.ts
run 0 'feed 4 filled 0 steps 3' net plan.toml
log_is tx-9.log 'restart 0'

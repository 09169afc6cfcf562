# Networks. The numbers and digests are those of a program that shares nothing with dtx, as are the files that are compared.

# A plan is said in parts, one behind the other: the two transmitters of the examples and the stream, each event, what is received.
network() {
    printf 'start = 0\nmax_delay = 5000000\n'
    printf '[[transmitter]]\naddress = %s\noffset = %s\ndelay = %s\n' 7 -10 1000 9 25 2000
    printf '[net]\nstream = "%s"\n' "$1"
}
send() { printf '[[net.event]]\ndo = "send"\nto = %s\nfrom = %s\ncount = %s\n' "$@"; }
foreign() { printf '[[net.event]]\ndo = "foreign"\nto = %s\nseed = %s\nfrom = %s\ncount = %s\n' "$@"; }
flip() { printf '[[net.event]]\ndo = "flip"\nto = %s\nfrom = %s\nat = %s\nwith = %s\n' "$@"; }
lie() { printf '[[net.event]]\ndo = "lie"\nto = %s\nfrom = %s\nstates = "%s"\n' "$@"; }
restart() { printf '[[net.event]]\ndo = "restart"\nto = %s\n' "$@"; }
receiver() { printf '[net.receive]\nfrom = %s\n' "$@"; }
damage() { printf '[[net.receive.damage]]\nat = %s\ncount = %s\nput = %s\n' "$@"; }

# The second transmitter joins, is given foreign packets, and is restarted.
joining() { send 9 0 300 && foreign 9 2 0 50 && restart 9 && send 9 0 1300; }

# stream PACKETS NAME: makes a file of the first packets of the made stream.
stream() {
    head -c $(($1 * 188)) "$room/made.ts" >"$2"
}

sent=d053d41c45f273e3e262b297d5fa7c7df44adbfb998e9210481653691e0f1178
fed=a97707ad9c5b771bb9510c7c1bd833cdc4cc941066286ea2722af15bdf507f12
both=(net.feed tx-7.sym tx-7.log tx-9.sym tx-9.log)

# has_joined: the feed and the files of both transmitters are those of a network in which one is given the feed and the other joins.
has_joined() {
    has_digest net.feed "$fed"
    has_digest tx-7.sym "$sent"
    has_digest tx-7.log 42071eb44f95e818bfcf4eb4a16103cb4638dc713e3a49989c7d8621846571f4
    has_digest tx-9.sym 7b48161eda997f06bf617fad1faaa4e1d4b5928d5c5ba90ec9e3dc654e5841a1
    has_digest tx-9.log 7a6ec83dfdb7fe74c2c8a4ad0cb9038044e0789037142d23cb79e9d302e55c99
}

# log_is FILE LINE..: the log has just these lines.
log_is() {
    local file=$1
    shift
    printf '%s' "${1:+$(printf '%s\n' "$@")}${1:+$'\n'}" | cmp -s - "$file" || wrong "$file is '$(tr '\n' ';' <"$file")'"
}

# older FILE..: puts older files there; keeps_older FILE..: they are there still.
older() {
    local file
    for file in "$@"; do
        cp ../inputs/given.ts "$file"
    done
}
keeps_older() {
    local file
    for file in "$@"; do
        cmp -s ../inputs/given.ts "$file" || wrong "$file was changed"
    done
}

# is_network STATUS PLAN: the network of PLAN, whose stream is here, has the status, the line and the files of the other program.
is_network() {
    rm -rf "$room/wanted"
    mkdir "$room/wanted"
    run "$1" "$("$top/checks/independent/network.py" net "$2" "$room/wanted")" net "$2"
    for file in "$room"/wanted/*; do
        cmp -s "$file" "${file##*/}" || wrong "${file##*/} is another file"
    done
}

given 3 0
start 'two transmitters, of which one joins later'
stream 1300 s.ts
{ network s.ts && send 7 0 1300 && joining && receiver 7; } >plan.toml
run 0 'feed 1300 filled 4 steps 2950 packets 937 fixed 0 flagged 0' net plan.toml
has_joined
has_digest net.ts 25bcdec4408a72dc0fc771a6f9f4864b5bece438a7f254858a62c49148eb8056
tail -c 1001728 tx-9.sym | cmp -s - tx-7.sym || wrong 'tx-9.sym does not end like tx-7.sym'
[[ $(stat -c %s tx-9.sym) == $((1453 * 832)) ]] || wrong 'tx-9.sym has not 1453 segments'
log_is tx-7.log 'preset 0 0 100 5078070 640' 'preset 313 0 412 5320042 612' 'preset 626 1 100 5562013 640' 'preset 939 1 412 5803985 612'
log_is tx-9.log 'preset 0 0 100 5078105 640' 'restart 249' 'preset 249 0 100 5078105 640' 'preset 562 0 412 5320077 612' \
    'preset 875 1 100 5562048 640' 'preset 1188 1 412 5804020 612'
apart=$(awk '$1 == "preset" && NR == FNR { ticks[$3 " " $4 " " $6] = $5 }
    $1 == "preset" && NR > FNR { print $5 - ticks[$3 " " $4 " " $6] }' tx-7.log tx-9.log | sort -u)
[[ $apart == 35 ]] || wrong "the moments are $apart ticks apart"
leaves s.ts plan.toml "${both[@]}" net.ts

start 'a network replaces older longer files, and leaves others'
stream 1300 s.ts
{ network s.ts && send 7 0 1300 && joining && receiver 7; } >plan.toml
for file in "${both[@]}" net.ts tx-8.sym; do
    cp "$room/made.ts" "$file"
done
run 0 'feed 1300 filled 4 steps 2950 packets 937 fixed 0 flagged 0' net plan.toml
has_joined
has_digest net.ts 25bcdec4408a72dc0fc771a6f9f4864b5bece438a7f254858a62c49148eb8056
cmp -s "$room/made.ts" tx-8.sym || wrong 'tx-8.sym was changed'

# What others are given in between changes nothing of a transmitter.
start 'the same network with its first event at the end'
stream 1300 s.ts
{ network s.ts && joining && send 7 0 1300; } >plan.toml
run 0 'feed 1300 filled 4 steps 2950' net plan.toml
has_joined
leaves s.ts plan.toml "${both[@]}"

start 'the same network with its first event cut in two and others between'
stream 1300 s.ts
{ network s.ts && send 7 0 333 && joining && send 7 333 967 && receiver 7; } >plan.toml
run 0 'feed 1300 filled 4 steps 2950 packets 937 fixed 0 flagged 0' net plan.toml
has_joined

start 'the same network in turns of single packets'
stream 1300 s.ts
{
    network s.ts
    for ((k = 0; k < 1300; k++)); do
        send 7 $k 1
        ((k >= 300)) || send 9 $k 1
    done
    foreign 9 2 0 50
    restart 9
    send 9 0 1300
} >plan.toml
run 0 'feed 1300 filled 4 steps 2950' net plan.toml
has_joined

start 'the same network with damage'
stream 1300 s.ts
{ network s.ts && send 7 0 1300 && joining && receiver 7 && damage 300000 12 127; } >plan.toml
run 0 'feed 1300 filled 4 steps 2950 packets 937 fixed 9 flagged 0' net plan.toml
has_joined
has_digest net.ts 25bcdec4408a72dc0fc771a6f9f4864b5bece438a7f254858a62c49148eb8056

start 'a lying packet'
stream 1300 s.ts
{ network s.ts && send 7 0 100 && lie 7 100 000000000000 && send 7 101 1199 && joining && receiver 7; } >plan.toml
is_network 0 plan.toml
log_is tx-7.log 'preset 0 0 100 5078070 640' 'preset 313 0 412 5320042 612' 'preset 626 1 100 5562013 640' 'preset 939 1 412 5803985 612'
tail -c +$((313 * 832 + 1)) "$room/from_order.sym" >wanted.sym
tail -c +$((313 * 832 + 1)) tx-7.sym | cmp -s - wanted.sym || wrong 'the lie goes on behind the next order'
for segment in 0 1 2 3 60 311; do
    dd if=tx-7.sym bs=832 skip=$segment count=1 status=none | cmp -s - <(dd if="$room/from_order.sym" bs=832 skip=$segment count=1 status=none) &&
        wrong "segment $segment is coded from other states than those that the packet says"
done

start 'flipped packets: a stray mark and a missing one, a placeholder told by its PID no more, an operations packet that is mended'
stream 700 s.ts
{
    network s.ts
    send 7 0 100 && flip 7 100 2 4 && send 7 101 599
    send 9 0 100 && flip 9 100 50 255 && send 9 101 99
    flip 9 200 0 255 && send 9 201 423 && flip 9 624 0 255 && send 9 625 75
} >plan.toml
is_network 0 plan.toml
log_is tx-7.log 'preset 0 0 412 5320042 612'
log_is tx-9.log 'preset 0 0 100 5078105 640' 'preset 313 0 412 5320077 612'

start 'addresses at their ends, out of order, and transmitters that are late or given nothing'
stream 700 s.ts
{
    printf 'start = 9999999\nmax_delay = 0\n'
    printf '[[transmitter]]\naddress = %s\noffset = %s\ndelay = %s\n' 65535 32767 32767 0 -32768 0 10 32767 32768
    printf '[net]\nstream = "s.ts"\n'
    send 0 0 700 && send 65535 0 700 && restart 10 && restart 10
} >plan.toml
is_network 0 plan.toml
are_empty tx-0.sym tx-10.sym
log_is tx-0.log 'mute 0 late' 'mute 0 late'
log_is tx-10.log 'restart 0' 'restart 0'
leaves s.ts plan.toml net.feed tx-0.sym tx-0.log tx-10.sym tx-10.log tx-65535.sym tx-65535.log

start 'no events, and a stream of nothing'
: >s.ts
network s.ts >plan.toml
run 0 'feed 0 filled 0 steps 0' net plan.toml
are_empty "${both[@]}"
leaves s.ts plan.toml "${both[@]}"

start 'foreign packets alone, of a stream of nothing'
: >s.ts
{ network s.ts && foreign 7 9223372036854775807 623999900 100; } >plan.toml
run 0 'feed 0 filled 0 steps 100' net plan.toml
are_empty "${both[@]}"

start 'loose bytes of a stream, and a last group that is not whole'
stream 1300 s.ts
head -c 187 "$room/made.ts" >>s.ts
{ network s.ts && send 7 0 1300 && joining; } >plan.toml
run 0 'feed 1300 filled 4 steps 2950' net plan.toml
has_joined
stream 415 s.ts
{ network s.ts && send 9 0 415 && send 7 412 3; } >plan.toml
is_network 0 plan.toml

start 'names are those of the folder in which the program runs'
mkdir plans streams here
stream 1300 streams/s.ts
{ network ../streams/s.ts && send 7 0 1300 && joining; } >plans/plan.toml
cd here || exit 1
run 0 'feed 1300 filled 4 steps 2950' net ../plans/plan.toml
has_joined
cd ..
leaves plans plans/plan.toml streams streams/s.ts here "${both[@]/#/here/}"

while read -r name; do
    start "the plan and the stream '$name'"
    mkdir in
    stream 60 "in/$name"
    quoted=${name//\\/\\\\}
    network "in/${quoted//\"/\\\"}" >"./$name"
    run 0 'feed 60 filled 0 steps 0' net "$name"
    rm "in/$name"
    run 4 "absent in/$name" net "$name"
    rm "./$name"
    run 4 "absent $name" net "$name"
done <<'end'
with two blanks.ts
Übertragung-東京-αβγ.ts
-x
net
a*b?[c]$d'e"f\g
end

# Random networks.
start 'random networks'
"$top/checks/independent/network.py" "$dtx" 60 >"$room/said" || wrong "$(grep FAILED "$room/said" | head -n 3)"

# ---- Equal names ----

# NAME is the first, in the order PLAN, stream, feed, files of each transmitter, what is received, that equals an earlier one.
while read -r plan_name stream_name receives named; do
    start "equal names of \`net\`: PLAN $plan_name, stream $stream_name, $receives: $named"
    { network "$stream_name" && { [[ $receives == alone ]] || receiver 9; }; } >"$plan_name"
    run 3 "same $named" net "$plan_name"
    leaves "$plan_name"
done <<'end'
plan.toml plan.toml alone plan.toml
tx-7.sym tx-7.sym alone tx-7.sym
plan.toml net.feed alone net.feed
net.feed s.ts alone net.feed
tx-7.sym s.ts alone tx-7.sym
tx-7.log s.ts alone tx-7.log
tx-9.sym s.ts alone tx-9.sym
plan.toml tx-9.log alone tx-9.log
tx-9.sym tx-7.log alone tx-7.log
tx-7.log tx-7.sym alone tx-7.sym
tx-9.log net.feed alone net.feed
plan.toml net.ts received net.ts
net.ts s.ts received net.ts
net.ts tx-9.log received tx-9.log
end

start 'equal names of `net` in the order of the transmitters'
{ network tx-7.log | sed 's/address = 7/address = 5/; s/address = 9/address = 7/; s/address = 5/address = 9/'; } >tx-9.sym
run 3 'same tx-9.sym' net tx-9.sym
leaves tx-9.sym

start 'a stream named net.ts, and a plan, where nothing is received'
stream 1300 net.ts
{ network net.ts && send 7 0 1300 && joining; } >plan.toml
run 0 'feed 1300 filled 4 steps 2950' net plan.toml
has_joined
head -c $((1300 * 188)) "$room/made.ts" | cmp -s - net.ts || wrong 'net.ts was changed'
stream 60 s.ts
network s.ts >net.ts
run 0 'feed 60 filled 0 steps 0' net net.ts

start 'names of transmitters that the plan does not have are no names of the network'
stream 60 tx-8.sym
network tx-8.sym >tx-07.sym
run 0 'feed 60 filled 0 steps 0' net tx-07.sym

# ---- Refusals: where nothing was begun ----

start 'a plan without a table `net`'
sed '/^\[net\]/,$d' <(network s.ts) >plan.toml
run 5 'plan net 0 missing' net plan.toml
leaves plan.toml

start 'a plan without a table `net`, named as a file of the network'
sed '/^\[net\]/,$d' <(network s.ts) >net.feed
run 5 'plan net 0 missing' net net.feed
leaves net.feed

start 'a missing plan of `net`'
run 4 'absent missing.toml' net missing.toml
leaves_nothing

start 'a plan of `net` that is a folder'
mkdir plan.toml
run 11 'read fault' net plan.toml
leaves plan.toml

while IFS='|' read -r line text; do
    start "a plan of \`net\` that is refused: $line, $text"
    plan_says "$text"
    older net.feed
    run 5 "plan $line" net plan.toml
    keeps_older net.feed
    leaves plan.toml net.feed
done <<'end'
whole 0 text|start = 
start 0 missing|max_delay = 5000000\n
address 1 twice|start = 0\nmax_delay = 0\ntransmitter = [{ address = 7, offset = 0 }, { address = 7, offset = 0 }]\n[net]\nstream = "plan.toml"\n
stream 0 missing|{head}[net]\n
to 1 stranger|{event}do = "restart"\nto = 7\n[[net.event]]\ndo = "restart"\nto = 11\n
count 0 range|{event}do = "send"\nto = 7\nfrom = 0\ncount = 0\n
damage.at 1 order|{damage}at = 5\nput = 0\n[[net.receive.damage]]\nat = 5\nput = 0\n
end

start 'a missing stream'
network missing.ts >plan.toml
run 4 'absent missing.ts' net plan.toml
leaves plan.toml

start 'a missing stream leaves older files'
network missing.ts >plan.toml
older "${both[@]}" net.ts
run 4 'absent missing.ts' net plan.toml
keeps_older "${both[@]}" net.ts

start 'a stream that is a folder'
mkdir s.ts
network s.ts >plan.toml
run 11 'read fault' net plan.toml
leaves s.ts plan.toml

# ---- Refusals: what stands after them ----

while read -r packets spoilt line kept; do
    start "a stream of $packets packets, of which packet $spoilt begins with 48: $line"
    stream "$packets" s.ts
    printf '\x48' | dd of=s.ts bs=188 seek="$spoilt" conv=notrunc status=none
    { network s.ts && send 7 0 9999 && receiver 7; } >plan.toml
    older tx-7.sym net.ts
    run 6 "${line//_/ }" net plan.toml
    head -c $((kept * 188)) "$room/feed.ts" | cmp -s - net.feed || wrong "net.feed is not the first $kept packets of the feed"
    keeps_older tx-7.sym net.ts
    leaves s.ts plan.toml net.feed tx-7.sym net.ts
done <<'end'
9 5 packet_5 4
9 0 packet_0 0
1300 415 packet_415 412
1300 1299 packet_1299 1296
end

# The first event that reads past the feed, whose packets are 0 to 1299.
while IFS='|' read -r number events; do
    start "an event past the feed: $events"
    stream 1300 s.ts
    { network s.ts && eval "$events" && receiver 7 && damage 520831999999 1 0; } >plan.toml
    older tx-9.log net.ts
    run 8 "out of feed $number" net plan.toml
    has_digest net.feed "$fed"
    keeps_older tx-9.log net.ts
    leaves s.ts plan.toml net.feed tx-9.log net.ts
done <<'end'
0|send 7 0 1301 && joining
0|send 7 1300 1
0|flip 7 1300 0 1
0|lie 7 1300 000000000000
1|send 7 0 1300 && send 9 1299 2 && send 7 0 1301
2|foreign 7 1 0 5000 && restart 9 && lie 9 623999999 777777777777
3|send 7 1299 1 && flip 7 1299 187 255 && lie 7 1299 000000000000 && send 7 623999999 1
end

start 'an event past a feed of nothing'
: >s.ts
{ network s.ts && restart 7 && flip 7 0 0 1; } >plan.toml
run 8 'out of feed 1' net plan.toml
are_empty net.feed
leaves s.ts plan.toml net.feed

# The first entry that ends behind the symbols of the receiver's transmitter, which are 1,001,728.
while IFS='|' read -r number entries; do
    start "damage past the symbols: $entries"
    stream 1300 s.ts
    { network s.ts && send 7 0 1300 && joining && receiver 7 && eval "$entries"; } >plan.toml
    older net.ts
    run 9 "out of air $number" net plan.toml
    has_joined
    keeps_older net.ts
    leaves s.ts plan.toml "${both[@]}" net.ts
done <<'end'
0|damage 1001728 1 0
0|damage 0 1001729 0
1|damage 0 1001728 0 && damage 1001728 520832000000 0
2|damage 0 1 0 && damage 1 2 0 && damage 1001727 2 0 && damage 1001729 1 0
end

start 'damage up to the last symbol is inside'
stream 1300 s.ts
{ network s.ts && send 7 0 1300 && receiver 7 && damage 1001727 1 7; } >plan.toml
is_network 0 plan.toml

start 'a receiver of a transmitter that sends nothing'
stream 1300 s.ts
{ network s.ts && send 7 0 1300 && send 9 0 100 && receiver 9; } >plan.toml
older net.ts
run 10 'no sync' net plan.toml
has_digest tx-7.sym "$sent"
are_empty net.ts tx-9.sym tx-9.log
leaves s.ts plan.toml "${both[@]}" net.ts

start 'a receiver of a transmitter that sends no field sync'
stream 300 s.ts
{ network s.ts && send 9 0 300 && receiver 9; } >plan.toml
run 10 'no sync' net plan.toml
head -c $((200 * 832)) "$room/from_order.sym" | cmp -s - tx-9.sym || wrong 'tx-9.sym is not the first 200 segments'
are_empty net.ts

start 'damage that hides each field sync'
stream 1300 s.ts
{ network s.ts && send 7 0 1300 && joining && receiver 7 && damage 0 1001728 0; } >plan.toml
run 10 'no sync' net plan.toml
has_joined
are_empty net.ts

# ---- Files that cannot be written ----

# Each file in its turn, as a folder: those that were begun before it stand, and those behind it were not begun.
while read -r name before; do
    start "$name is a folder"
    stream 1300 s.ts
    { network s.ts && send 7 0 1300 && joining && receiver 7; } >plan.toml
    mkdir "$name"
    run 12 'write fault' net plan.toml
    # shellcheck disable=SC2086
    leaves s.ts plan.toml "$name" $before
    [[ $name == net.feed ]] || has_digest net.feed "$fed"
    if [[ $name == net.ts ]]; then
        has_joined
    elif [[ $before ]]; then
        # shellcheck disable=SC2086
        are_empty ${before#net.feed}
    fi
done <<'end'
net.feed
tx-7.sym net.feed
tx-7.log net.feed tx-7.sym
tx-9.sym net.feed tx-7.sym tx-7.log
tx-9.log net.feed tx-7.sym tx-7.log tx-9.sym
net.ts net.feed tx-7.sym tx-7.log tx-9.sym tx-9.log
end

# The feed has 244,400 bytes, what one transmitter sends 1,001,728, and what comes back of it 176,156.
while read -r size full; do
    start "no file may have more than $size kB"
    stream 1300 s.ts
    { network s.ts && send 9 0 50 && send 7 0 1300 && send 9 0 1300 && receiver 7; } >plan.toml
    (
        ulimit -f "$size"
        "$dtx" net plan.toml >"$room/said" 2>"$room/complaint"
    )
    ended 12 $?
    [[ $(cat "$room/said") == 'write fault' ]] || wrong "printed $(cat "$room/said")"
    case $full in
        net.feed)
            is_front net.feed "$room/feed.ts"
            leaves s.ts plan.toml net.feed
            ;;
        tx-7.sym)
            has_digest net.feed "$fed"
            is_begun tx-7.sym "$room/from_order.sym"
            head -n 1 tx-7.log | cmp -s - <(echo 'preset 0 0 100 5078070 640') || wrong 'tx-7.log does not begin with its first line'
            are_empty tx-9.sym tx-9.log
            leaves s.ts plan.toml "${both[@]}"
            ;;
    esac
done <<'end'
100 net.feed
300 tx-7.sym
900 tx-7.sym
end

if [[ -c /dev/full ]]; then
    for name in net.feed tx-7.sym tx-7.log; do
        start "$name is a full device"
        stream 1300 s.ts
        { network s.ts && send 7 0 1300 && send 9 0 1300 && receiver 7; } >plan.toml
        ln -s /dev/full $name
        run 12 'write fault' net plan.toml
        [[ $name == net.feed ]] || has_digest net.feed "$fed"
        [[ $name == net.feed ]] || are_empty tx-9.sym tx-9.log
    done

    start 'the packets received are for a full device'
    stream 1300 s.ts
    { network s.ts && send 7 0 1300 && joining && receiver 7; } >plan.toml
    ln -s /dev/full net.ts
    run 12 'write fault' net plan.toml
    has_joined

    start 'a full standard output after a network'
    stream 1300 s.ts
    { network s.ts && send 7 0 1300 && joining && receiver 7; } >plan.toml
    "$dtx" net plan.toml >/dev/full 2>"$room/complaint"
    ended 12 $?
    has_joined
    has_digest net.ts 25bcdec4408a72dc0fc771a6f9f4864b5bece438a7f254858a62c49148eb8056

    start 'a full standard output after refusals of `net`'
    stream 60 s.ts
    { network s.ts && send 7 0 61; } >plan.toml
    "$dtx" net plan.toml >/dev/full 2>"$room/complaint"
    ended 8 $?
    "$dtx" net missing.toml >/dev/full 2>"$room/complaint"
    ended 4 $?
    { network s.ts && receiver 7 && damage 0 1 0; } >plan.toml
    "$dtx" net plan.toml >/dev/full 2>"$room/complaint"
    ended 9 $?
fi

# The two networks of which a test finds that they meet what the headline asks, one with a little damage before its first field sync. Those
# packets from packet 312 on are received, but for the last 52, whose bytes aren't all sent.
for laid in '' 'damage 1000 20 127'; do
    start "a worked network${laid:+ with $laid}"
    stream 400 made.ts
    {
        printf 'start = 0\nmax_delay = 5000000\n'
        printf '[[transmitter]]\naddress = 7\noffset = -10\ndelay = 1000\n[[transmitter]]\naddress = 9\noffset = 15\n'
        printf '[net]\nstream = "made.ts"\n'
        send 7 0 400 && send 9 0 400 && receiver 7 && $laid
    } >plan.toml
    run 0 'feed 400 filled 1 steps 800 packets 36 fixed 0 flagged 0' net plan.toml
    tail -c +$((312 * 188 + 1)) net.feed | head -c $((36 * 188)) | cmp -s - net.ts || wrong 'net.ts has other packets'
done

# Operations packets that begin a frame and a field behind a field sync, as they are and as lies.
for order in 0 624; do
    start "a lie at packet $order"
    stream 700 s.ts
    tail -c +$((100 * 188 + 1)) s.ts | head -c 188 | dd of=s.ts bs=188 seek="$order" conv=notrunc status=none
    {
        network s.ts
        ((order == 0)) || send 7 0 "$order"
        lie 7 "$order" 777777777777 && send 7 $((order + 1)) $((699 - order)) && send 9 0 700
    } >plan.toml
    is_network 0 plan.toml
    [[ $(head -n 1 tx-7.log) == 'preset 0 0 100 5078070 640' ]] || wrong "tx-7.log is '$(tr '\n' ';' <tx-7.log)'"
done

# The outer coding of EN 300 429. What OUT must be is written here, or by a program that shares nothing with dtx.

# byte_is FILE PLACE VALUE: that byte of the file has that value, in hexadecimal digits.
byte_is() {
    local found
    found=$(od -An -tx1 -j "$2" -N 1 "$1")
    [[ ${found// /} == "$3" ]] || wrong "byte $2 of $1 is ${found// /}, not $3"
}

# is_first_of OUT STREAM PACKETS: OUT is the first packets of the stream.
is_first_of() {
    head -c $(($3 * 188)) "$2" | cmp -s - "$1" || wrong "$1 is not the first $3 packets of $2"
}

# reads SENT: what `dvb read` prints and writes of a file is what a program prints and writes that shares nothing with it.
reads() {
    local line
    line=$("$top/checks/independent/dvb.py" read "$1" wanted.ts)
    run 0 "$line" dvb read "$1" out.ts
    cmp -s wanted.ts out.ts || wrong 'out.ts has other packets'
}

# other_bytes SENT PLACE COUNT: replaces so many bytes in a row, each by another one.
other_bytes() {
    tail -c +$(($2 + 1)) "$1" | head -c "$3" | tr '\000-\377' '\001-\377\000' >"$room/other"
    dd if="$room/other" of="$1" bs=1 seek="$2" conv=notrunc status=none
}

# The digest is that of bytes that GNU Radio's blocks of this coding made.
start 'the bytes of twenty packets'
run 0 'packets 20' make 1 20 x.ts
run 0 'packets 20 loose 0' dvb code x.ts y
has_digest y 0a96386e0d3511acc7d301c4c702e3583b41fa718b9ac84f83905ae8c03f3ee2
byte_is y 0 b8
byte_is y 204 47
byte_is y 1632 b8
for place in {1..11}; do
    byte_is y "$place" 00
done
leaves x.ts y
cp x.ts y "$room"

# The first bytes of a packet of zeros, each of which the interleaver sends 204 bytes later than the one before it.
start 'the bytes that randomize zeros'
for ((index = 0; index < 9; index++)); do
    printf '\x47'
    head -c 187 /dev/zero
done >zeros.ts
run 0 'packets 9 loose 0' dvb code zeros.ts out
while read -r place value; do
    byte_is out "$place" "$value"
done <<'end'
0 b8
205 03
410 f6
615 08
820 34
204 47
1632 b8
end

start 'twenty blocks are read back'
run 0 'blocks 20 packets 9 fixed 0 flagged 0 loose 0' dvb read "$room/y" out.ts
is_first_of out.ts "$room/x.ts" 9
leaves out.ts

# No word has more than eight of them.
start 'ninety-six bytes in a row are put right, wherever they stand'
for place in 0 5 107 108 1000 1950 2000 2345 3000 3984; do
    cp "$room/y" y
    other_bytes y "$place" 96
    reads y
    [[ $(cat "$room/said") == 'blocks 20 packets 9 fixed '*' flagged 0 loose 0' ]] || wrong "at $place: $(cat "$room/said")"
    is_first_of out.ts "$room/x.ts" 9
done

# Byte j of the first word stands at j + 204 * (j mod 12).
while read -r count fixed flagged; do
    start "$count wrong bytes of a word"
    cp "$room/y" y
    for ((index = 0; index < count; index++)); do
        other_bytes y $((205 * index)) 1
    done
    reads y
    [[ $(cat "$room/said") == "blocks 20 packets 9 fixed $fixed flagged $flagged loose 0" ]] || wrong "printed $(cat "$room/said")"
    tail -c +189 out.ts | cmp -s - <(tail -c +189 "$room/x.ts" | head -c $((8 * 188))) || wrong 'the other packets are not those of the stream'
done <<'end'
8 8 0
9 0 1
end

start 'words with too many wrong bytes are flagged and kept'
cp "$room/y" y
other_bytes y 2244 204
reads y
[[ $(cat "$room/said") == 'blocks 20 packets 9 fixed '*' flagged '[1-9]* ]] || wrong "printed $(cat "$room/said")"

# Of so many blocks and loose bytes so many packets come back.
while read -r blocks packets loose; do
    start "$blocks blocks and $loose loose bytes"
    head -c $((blocks * 204 + loose)) "$room/y" >y
    run 0 "blocks $blocks packets $packets fixed 0 flagged 0 loose $loose" dvb read y out.ts
    is_first_of out.ts "$room/x.ts" "$packets"
    leaves y out.ts
done <<'end'
0 0 0
0 0 203
1 0 0
11 0 0
11 0 203
12 1 0
12 1 1
19 8 0
end

start 'a stream of many pieces, there and back'
run 0 'packets 3000 loose 0' dvb code ../inputs/long.ts y
"$top/checks/independent/dvb.py" code ../inputs/long.ts wanted >/dev/null
cmp -s wanted y || wrong 'y holds other bytes'
run 0 'blocks 3000 packets 2989 fixed 0 flagged 0 loose 0' dvb read y out.ts
is_first_of out.ts ../inputs/long.ts 2989
cp wanted "$room/long.dvb"

while read -r packets loose; do
    start "the outer coding of $packets packets and $loose loose bytes"
    given "$packets" "$loose"
    run 0 "packets $packets loose $loose" dvb code ../inputs/given.ts out
    head -c $((packets * 204)) "$room/long.dvb" | cmp -s - out || wrong 'out holds other bytes'
    leaves out
done <<'end'
0 0
0 187
1 0
3 5
8 1
347 0
348 0
349 187
end

# All packets before the one that is refused are coded, also where they are no groups of four.
while read -r index sync; do
    start "\`dvb code\` refuses packet $index, whose byte 0 is $sync"
    given 700 0
    spoil "$index" "$sync" 31
    run 6 "packet $index" dvb code ../inputs/given.ts out
    head -c $((index * 204)) "$room/long.dvb" | cmp -s - out || wrong "out does not hold the bytes of $index packets"
    leaves out
done <<'end'
0 b8
1 48
5 b8
347 00
348 b8
350 46
699 ff
end

start 'bytes and packets replace an existing longer output'
given 4 0
cp ../inputs/long.ts out
run 0 'packets 4 loose 0' dvb code ../inputs/given.ts out
[[ $(stat -c %s out) == 816 ]] || wrong 'out has not four blocks'
cp ../inputs/long.ts out
run 0 'blocks 20 packets 9 fixed 0 flagged 0 loose 0' dvb read "$room/y" out
is_first_of out "$room/x.ts" 9

start 'random streams, coded, damaged and read'
"$top/checks/independent/dvb.py" "$dtx" 80 >"$room/said" || wrong "$(grep FAILED "$room/said" | head -n 3)"

# ---- Refusals ----

for verb in code read; do
    refuses_files dvb $verb
done

start 'the disk is full of coded bytes'
fills_up 300 "$room/long.dvb" dvb code ../inputs/long.ts out

start 'the disk is full of packets that are read'
fills_up 300 ../inputs/long.ts dvb read "$room/long.dvb" out

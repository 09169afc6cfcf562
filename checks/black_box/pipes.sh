# Inputs that are pipes, and what else is read once: what comes of them is what comes of files.

usual=(timeout 60 "$dtx")
again='dtx: an input is a pipe that was already read, and a pipe can be read only once'
overlap='dtx: an output is the same file as an input, another output or standard output'

# as_of_files WORD..: the program, given the words, of which those that begin with @ name inputs, prints and writes the same where these are
# pipes as where they are files. Its outputs are `out.*`.
as_of_files() {
    local number words=("${@#@}") piped=("$@")
    "$dtx" "${words[@]}" >"$room/line" 2>"$room/complaint"
    ended 0 $?
    mkdir wanted
    mv out.* wanted
    for number in "${!piped[@]}"; do
        [[ ${piped[number]} == @* ]] || continue
        piped[number]=in-$number
        mkfifo "in-$number"
        cat "${words[number]}" >"in-$number" &
    done
    run 0 "$(<"$room/line")" "${piped[@]}"
    wait
    are_wanted
}

# are_wanted: the outputs that stand here are the files of `wanted`.
are_wanted() {
    local file
    for file in wanted/*; do
        cmp -s "$file" "${file##*/}" || wrong "${file##*/} is another file"
    done
}

# slowly FILE BYTES: writes the file in pieces of so many bytes, between which others get their turn.
slowly() {
    python3 -c 'import os, sys, time
given, size = open(sys.argv[1], "rb").read(), int(sys.argv[2])
for place in range(0, len(given), size):
    os.write(1, given[place:place + size])
    time.sleep(0.0005)' "$@"
}

# is_complained STATUS LINE COMPLAINT ENDED: a run that ended so was to end with the status, and to print just the line, and the complaint on
# standard error.
is_complained() {
    [[ $1 == "$4" ]] || wrong "status $4, not $1"
    [[ $(<"$room/said") == "$2" ]] || wrong "printed '$(cat -v "$room/said")', not '$2'"
    [[ $(<"$room/complaint") == "$3" ]] || wrong "on standard error '$(cat -v "$room/complaint")'"
}

# comes_after BYTES LEAST WHOLE INPUT WORD..: of what the program, given the words, whose input is the pipe `in`, writes, at least so many bytes
# come once so many bytes of INPUT were written to the pipe, and before there are more. In the end the output is the whole.
comes_after() {
    local bytes=$1 least=$2 whole=$3 input=$4 out=${!#} try
    shift 4
    mkfifo in
    timeout 60 "$dtx" "$@" >"$room/said" 2>"$room/complaint" &
    {
        head -c "$bytes" "$input" >&9
        for ((try = 0; try < 100; try++)); do
            [[ ! -e $out ]] || (($(stat -c %s "$out") < least)) || break
            sleep 0.1
        done
        ((try < 100)) || wrong "nothing came of the first $bytes bytes"
        tail -c +$((bytes + 1)) "$input" >&9
    } 9>in
    wait $!
    ended 0 $?
    cmp -s "$whole" "$out" || wrong "$out is another file"
}

given 625 0
"$dtx" dvb code ../inputs/given.ts "$room/piped.dvb" >"$room/said"
printf 'damage = [{ at = 1000, count = 5000, put = 1 }]\n' >"$room/piped.toml"

# ---- Every command that reads ----

while read -ra words; do
    start "inputs of \`${words[*]}\` that are pipes"
    as_of_files "${words[@]/ROOM/$room}"
done <<'end'
adapt @../inputs/plan.toml @../inputs/given.ts out.ts
code @../inputs/long.ts out.sym
excite @ROOM/feed.ts 7 1000 out.sym out.log
receive @ROOM/feed.sym out.ts
soft @ROOM/feed.sym out.sym
mend @ROOM/feed.sym out.ts
repeat @ROOM/feed.sym 7 1000 out.sym out.log
acquire 1 @ROOM/feed.sym out.sym
refine 1 2 @ROOM/feed.sym out.sym
level @ROOM/feed.sym out.sym out.log
watch @ROOM/feed.ts out.txt
dvb code @../inputs/given.ts out.dvb
dvb read @ROOM/piped.dvb out.ts
place @../inputs/given.ts out.ts
hurt @ROOM/feed.sym @ROOM/piped.toml out.sym
end

start 'a network whose plan and stream are pipes'
{ network s.ts && send 7 0 1300 && receiver 7; } >"$room/piped.plan"
stream 1300 "$room/piped.ts"
cp "$room/piped.ts" s.ts
"$dtx" net "$room/piped.plan" >"$room/line"
mkdir wanted
mv net.* tx-* wanted
rm s.ts
mkfifo s.ts plan
cat "$room/piped.plan" >plan &
cat "$room/piped.ts" >s.ts &
run 0 "$(<"$room/line")" net plan
wait
are_wanted

# ---- Standard input, and commands in a row ----

start 'standard input that is a pipe'
for name in /dev/stdin /dev/fd/0; do
    run 0 'packets 625 segments 626 loose 0' code $name out.sym < <(cat ../inputs/given.ts)
    coded_front 625
    leaves out.sym
done

start 'standard input that is a file is read from its beginning'
exec 9<../inputs/given.ts
head -c 1000 <&9 >"$room/said"
run 0 'packets 625 segments 626 loose 0' code /dev/stdin out.sym <&9
exec 9<&-
coded_front 625

start 'standard input that is a pipe with a name, whose writer has ended'
mkfifo pipe
head -c 18817 ../inputs/given.ts >pipe &
{ wait && run 0 'packets 100 segments 101 loose 17' code /dev/stdin out.sym; } <pipe
coded_front 100

start 'standard input that is a socket'
program=(timeout 60 python3 "$top/checks/black_box/by_socket.py" ../inputs/given.ts "$dtx")
run 0 'packets 625 segments 626 loose 0' code /dev/stdin out.sym
coded_front 625

start 'process substitution, for inputs and an output'
mkfifo done
run 0 'packets 625 filled 0 loose 0' adapt <(sed 's/#.*//' "$plan") <(cat ../inputs/given.ts) >(cat >out.ts && : >done)
timeout 20 cat done
holds out.ts 625

start 'two commands in one pipeline'
"$dtx" receive "$room/feed.sym" wanted.ts >"$room/line"
{ "$dtx" code /dev/stdin /dev/fd/3 3>&1 >&2 <"$room/feed.ts" | run 0 "$(<"$room/line")" receive /dev/stdin out.ts; } 2>first
[[ $(<first) == 'packets 1300 segments 1305 loose 0' ]] || wrong "the first one said '$(<first)'"
cmp -s wanted.ts out.ts || wrong 'out.ts has other packets'

start 'a pipe with a name between two commands'
"$dtx" receive "$room/feed.sym" wanted.ts >"$room/line"
mkfifo link.sym
"$dtx" code "$room/feed.ts" link.sym >first &
run 0 "$(<"$room/line")" receive link.sym out.ts
wait
[[ $(<first) == 'packets 1300 segments 1305 loose 0' ]] || wrong "the first one said '$(<first)'"
cmp -s wanted.ts out.ts || wrong 'out.ts has other packets'

# ---- Writers that are slow, end early, or never come ----

start 'what `code` makes of the first 160 packets comes before there are more'
comes_after $((160 * 188)) 4096 "$room/long.sym" ../inputs/long.ts code in out.sym

start 'what `adapt` makes of the first 700 packets comes before there are more'
comes_after $((700 * 188)) 4096 "$room/long.feed" ../inputs/long.ts adapt "$plan" in out.ts

start 'what `receive` makes of the first 755 segments comes before there are more'
"$dtx" receive "$room/long.sym" "$room/long.back" >"$room/said"
comes_after $((755 * 832)) 4096 "$room/long.back" "$room/long.sym" receive in out.ts

# However the pipe cuts the input, all but 131,072 bytes of what is made has come.
start 'what `code` makes of the first 208 packets comes but for 131,072 bytes'
comes_after $((208 * 188)) 41984 "$room/long.sym" ../inputs/long.ts code in out.sym

start 'what `adapt` makes of the first 1,044 packets comes but for 131,072 bytes'
comes_after $((1044 * 188)) 65200 "$room/long.feed" ../inputs/long.ts adapt "$plan" in out.ts

start 'a writer of small pieces'
for size in 7 189; do
    head -c $((size * 500)) ../inputs/given.ts >in.ts
    "$dtx" adapt "$plan" in.ts wanted.ts >"$room/line"
    run 0 "$(<"$room/line")" adapt <(slowly "$plan" $size) <(slowly in.ts $size) out.ts
    cmp -s wanted.ts out.ts || wrong "of pieces of $size bytes out.ts has other packets"
done

start 'a writer that dies early is an end'
run 0 'packets 100 segments 101 loose 17' code /dev/stdin out.sym < <(head -c 18817 ../inputs/given.ts && kill -KILL $BASHPID)
coded_front 100
run 0 'packets 0 segments 0 loose 0' code /dev/stdin out.sym < <(:)
run 0 'packets 0 segments 0 loose 1' code /dev/stdin out.sym < <(printf G)
leaves out.sym

start 'the end stays the end, where another writer comes'
mkfifo in.ts out.sym
timeout 60 "$dtx" code in.ts out.sym >"$room/said" 2>"$room/complaint" &
# The first writer writes nothing; then the program waits for who reads its output, and holds its input open.
: >in.ts
sleep 0.5
timeout 20 dd if=../inputs/given.ts of=in.ts bs=1880 count=1 status=none
timeout 20 cat out.sym >"$room/piped"
wait $!
is_said 0 'packets 0 segments 0 loose 0' $?
[[ ! -s $room/piped ]] || wrong 'symbols came'

start 'a pipe that no one writes, and one that stalls, are waited for until a signal comes'
mkfifo in.ts
for signal in TERM INT; do
    program=(timeout -k 10 -s $signal 1 "$dtx")
    run 124 '' code in.ts out.sym
    leaves in.ts
done
exec 9<>in.ts
run 124 '' code in.ts out.sym
leaves in.ts
head -c 39204 ../inputs/given.ts >&9
run 124 '' code in.ts out.sym
exec 9>&-
(($(stat -c %s out.sym) >= 172032)) || wrong 'the first symbols did not come'
is_begun out.sym "$room/long.sym"

start 'a terminal as an input'
program=(timeout 20 python3 "$top/checks/black_box/terminal.py" shown '' 1 "$dtx")
run 0 'packets 0 segments 0 loose 6' code TERMINAL out.sym
leaves shown out.sym

# ---- Pipes that are named twice ----

start 'one pipe as two inputs'
"${program[@]}" adapt /dev/stdin /dev/fd/0 out.ts < <(cat "$plan") >"$room/said" 2>"$room/complaint"
is_complained 11 'read fault' "$again" $?
mkfifo pipe
ln pipe other
cat "$plan" >pipe &
"${program[@]}" adapt pipe other out.ts >"$room/said" 2>"$room/complaint"
is_complained 11 'read fault' "$again" $?
wait
leaves pipe other

start 'an output that is the pipe of an input'
mkfifo in.ts
while read -r name; do
    cat ../inputs/given.ts >in.ts 2>"$room/said" &
    "${program[@]}" code in.ts "$name" >"$room/said" 2>"$room/complaint"
    is_complained 12 'write fault' "$overlap" $?
    wait
done < <(named in.ts)
for name in /dev/fd/0 /proc/self/fd/0; do
    "${program[@]}" code /dev/stdin $name < <(cat ../inputs/given.ts 2>"$room/line") >"$room/said" 2>"$room/complaint"
    is_complained 12 'write fault' "$overlap" $?
done

start 'an output that is the pipe of standard output'
for name in /dev/stdout /dev/fd/1; do
    "${program[@]}" code ../inputs/given.ts $name 2>"$room/complaint" | cat >"$room/said"
    is_complained 12 'write fault' "$overlap" "${PIPESTATUS[0]}"
done
leaves_nothing

# ---- Memory ----

# long_stream: the long stream, 200 times.
long_stream() {
    local each
    for each in {1..40}; do
        cat ../inputs/long.ts ../inputs/long.ts ../inputs/long.ts ../inputs/long.ts ../inputs/long.ts
    done
}

# In 12 MB there is room for the program and its libraries, and for a tenth of the stream.
start 'a long stream through a pipe takes no memory'
long_stream | (
    ulimit -v 12000
    exec "$dtx" code /dev/stdin /dev/null >"$room/said" 2>"$room/complaint"
)
is_said 0 'packets 600000 segments 601924 loose 0' $?

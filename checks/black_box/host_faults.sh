# What the host does to files, devices and standard streams while the program runs.

# is_said STATUS LINE ENDED: a run that ended so was to end with the status, and to print just that line.
is_said() {
    ended "$1" "$3"
    [[ $(cat "$room/said") == "$2" ]] || wrong "printed '$(cat -v "$room/said")', not '$2'"
}

# meanwhile DO OUT WORD..: runs the program, given the words, of which OUT names an output, which is a pipe here. Once the
# first byte has come through it, when more was read and the rest of it waits, does DO, and then takes the rest.
meanwhile() {
    local do=$1 out=$2 run
    shift 2
    mkfifo "$out"
    exec 8<>"$out"
    timeout 60 "$dtx" "$@" >"$room/said" 2>"$room/complaint" 8>&- &
    run=$!
    exec 9<"$out"
    timeout 30 dd bs=1 count=1 status=none <&9 >"$room/piped"
    exec 8>&-
    eval "$do"
    timeout 60 cat <&9 >>"$room/piped"
    exec 9<&-
    wait "$run"
}

# ---- Files that others change meanwhile ----
given 625 0

start 'an output that is a pipe'
meanwhile : out.sym code ../inputs/long.ts out.sym
is_said 0 'packets 3000 segments 3010 loose 0' $?
cmp -s "$room/piped" "$room/long.sym" || wrong 'other symbols came through the pipe'
leaves out.sym

start 'an output that is a pipe which is read no more'
meanwhile 'exec 9</dev/null' out.sym code ../inputs/long.ts out.sym
is_said 12 'write fault' $?

while IFS=: read -r shows do; do
    start "an input that is $shows while it is read"
    cp ../inputs/long.ts in.ts
    meanwhile "$do" out.sym code in.ts out.sym
    is_said 11 'read fault' $?
    is_begun "$room/piped" "$room/long.sym"
done <<'end'
lost:rm in.ts
emptied:truncate -s 0 in.ts
cut to fewer bytes than were read:truncate -s 1000 in.ts
replaced by another file:cp in.ts other.ts; mv other.ts in.ts
replaced by a folder:rm in.ts; mkdir in.ts
end

# changes_are_faults TITLE PREPARE OUT WORD..: for each line SHOWS:DO of standard input, in a folder that PREPARE fills, the
# program, given the words, answers a write fault where DO is done meanwhile. OUT, a pipe, has symbols from the order on.
# SHOWS stands in the title in the place of %s.
changes_are_faults() {
    local title=$1 prepare=$2 out=$3 shows do
    shift 3
    while IFS=: read -r shows do; do
        start "${title/\%s/$shows}"
        "$prepare"
        meanwhile "$do" "$out" "$@"
        is_said 12 'write fault' $?
        is_begun "$room/piped" "$room/from_order.sym"
    done
}

changes_are_faults 'an output that is %s while it is written' : out.sym \
    excite "$room/feed.ts" 7 1000 out.sym out.log <<'end'
lost:rm out.log
cut or written by another:echo more >>out.log
replaced by another file:cp out.log other.log; mv other.log out.log
replaced by a link to an input:ln -sf ../inputs/given.ts out.log
end

one_event() {
    stream 1300 s.ts
    { network s.ts && send 7 0 1300; } >plan.toml
}

changes_are_faults 'a log of a network that is %s between two of its lines' one_event tx-7.sym net plan.toml <<'end'
lost:rm tx-7.log
cut:truncate -s 5 tx-7.log
written by another:echo more >>tx-7.log
replaced by another file:cp tx-7.log other.log; mv other.log tx-7.log
end

# Those of another transmitter stand between the two.
two_events() {
    stream 1300 s.ts
    { network s.ts && send 7 0 700 && send 9 0 1300 && send 7 700 600; } >plan.toml
}

changes_are_faults 'symbols of a network that are %s between two events of their transmitter' \
    two_events tx-9.sym net plan.toml <<'end'
lost:rm tx-7.sym
cut:truncate -s 100000 tx-7.sym
written by another:echo more >>tx-7.sym
replaced by another file:cp tx-7.sym other.sym; mv other.sym tx-7.sym
end

start 'a network of more files than may be open'
stream 1300 s.ts
{
    printf 'start = 0\nmax_delay = 5000000\n'
    printf '[[transmitter]]\naddress = %s\noffset = 0\ndelay = 0\n' {1..35}
    printf '[net]\nstream = "s.ts"\n'
    for from in 0 650; do
        for address in {1..35}; do
            send $address $from 650
        done
    done
} >plan.toml
for most in 1024 16; do
    (
        ulimit -n $most
        "$dtx" net plan.toml >"$room/said" 2>"$room/complaint"
    )
    is_said 0 'feed 1300 filled 4 steps 45500' $?
    "$dtx" excite net.feed 1 0 one.sym one.log >/dev/null
    for address in {1..35}; do
        cmp -s tx-$address.sym one.sym || wrong "with $most open files tx-$address.sym has other symbols"
        cmp -s tx-$address.log one.log || wrong "with $most open files tx-$address.log has other lines"
    done
done

# ---- A socket with a name ----

start 'a socket as an input and as an output'
python3 -c 'import socket; socket.socket(socket.AF_UNIX).bind("socket")'
run 11 'read fault' code socket out.sym
run 12 'write fault' code ../inputs/given.ts socket
leaves socket

# ---- Names ----

start 'the longest name that the host takes, and longer ones'
printf -v before '%.0s./' {1..2045}
cp ../inputs/given.ts in.ts
run 0 'packets 625 segments 626 loose 0' code "${before}in.ts" out.sym
run 4 "absent ${before}no.ts" code "${before}no.ts" out.sym
run 11 'read fault' code "${before}in.ts/" out.sym
run 12 'write fault' code in.ts "${before}out.ts"
printf -v long_name '%0256d' 0
run 11 'read fault' code "$long_name" out.sym
run 12 'write fault' code in.ts "$long_name"
leaves in.ts out.sym

# ---- Full disks ----

# on_small_disk WORD..: runs the program, given the words, in a folder `disk` that is a file system of 400 kB, and copies
# what stands there then to `kept`. The status is 99 where nothing can be mounted.
on_small_disk() {
    mkdir disk
    unshare --mount "${as_root[@]}" bash -c '
        mount -t tmpfs -o size=400k none disk || exit 99
        (cd disk && "${@:2}" >"$1/said" 2>"$1/complaint")
        status=$?
        cp -r disk kept
        exit $status' small_disk "$room" "$dtx" "$@" 2>"$room/mounting"
}

as_root=()
((EUID == 0)) || as_root=(--map-root-user)
start 'a disk that fills up in the middle'
on_small_disk code ../../inputs/long.ts out.sym
status=$?
if ((status == 99)) || [[ ! -d kept ]]; then
    left_out 'a disk that fills up, since none can be mounted' 'util-linux, or run it as root'
else
    is_said 12 'write fault' $status
    is_begun kept/out.sym "$room/long.sym"

    start 'a disk that fills up in the middle of a network'
    stream 1300 s.ts
    { network s.ts && send 7 0 1300 && send 9 0 1300; } >plan.toml
    run 0 'feed 1300 filled 4 steps 2600' net plan.toml
    mkdir whole
    mv net.feed tx-* whole
    sed -i 's|"s.ts"|"../s.ts"|' plan.toml
    on_small_disk net ../plan.toml
    is_said 12 'write fault' $?
    for name in net.feed tx-7.sym; do
        is_begun kept/$name whole/$name
    done
fi

# ---- Standard streams ----

start 'a standard output that is a pipe that no one reads'
mkfifo pipe
exec 8<>pipe 9>pipe 8>&-
"$dtx" code ../inputs/given.ts out.sym >&9 2>"$room/complaint"
ended 12 $?
exec 9>&-
coded_front 625
leaves pipe out.sym

start 'closed standard streams'
"$dtx" code ../inputs/given.ts out.sym <&- >&- 2>&-
[[ $? == 12 ]] || wrong 'the status is not 12'
coded_front 625
"$dtx" code missing.ts other.sym <&- >&- 2>&-
[[ $? == 4 ]] || wrong 'the status is not 4'
leaves out.sym

start 'closed standard streams, and an output that is a pipe'
mkfifo out.sym
cat out.sym >"$room/piped" &
timeout 20 "$dtx" code ../inputs/given.ts out.sym <&- >&- 2>&-
[[ $? == 12 ]] || wrong 'the status is not 12'
wait
(($(stat -c %s "$room/piped") == 626 * 832)) || wrong 'other bytes came through the pipe'
is_begun "$room/piped" "$room/long.sym"

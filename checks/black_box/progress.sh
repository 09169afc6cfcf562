# How far long work is.

# on_terminal STATUS LINE SHOWN STREAMS WORD..: the program, given the words, whose output out.sym is a pipe that is read after a while,
# prints just the line, and the terminal that is its standard error shows what fits the pattern SHOWN, and nothing else.
on_terminal() {
    local status=$1 line=$2 shown=$3 streams=$4
    shift 4
    program=(timeout 30 python3 "$top/checks/black_box/terminal.py" "$room/shown" out.sym "$streams" "$dtx")
    run "$status" "$line" "$@"
    tr '\r' '@' <"$room/shown" >"$room/legible"
    printf '%s' "$(cat "$room/legible")" | grep -Eqx "$shown" || wrong "the terminal showed '$(cat "$room/legible")'"
    cmp -s out.sym.taken "$room/long.sym" || wrong 'other symbols came through the pipe'
}

far='(@dtx: +[0-9]+ % read, +[0-9]+\.[0-9] MB/s)+@ {31}@'
given 0 0

start 'long work on a terminal says how far it is, and wipes that'
on_terminal 0 'packets 3000 segments 3010 loose 0' "$far" 1 code ../inputs/long.ts out.sym

start 'long work on a terminal prints its line last'
on_terminal 0 '' "${far}packets 3000 segments 3010 loose 0" 2 code ../inputs/long.ts out.sym

start 'long work on a pipe says how much was read'
mkfifo in.ts
cat ../inputs/long.ts >in.ts &
on_terminal 0 'packets 3000 segments 3010 loose 0' '(@dtx: +[0-9]+ MB, +[0-9]+\.[0-9] MB/s)+@ {31}@' 1 code in.ts out.sym
wait

start 'long work elsewhere says nothing on standard error'
meanwhile 'sleep 1.2' out.sym code ../inputs/long.ts out.sym
is_said 0 'packets 3000 segments 3010 loose 0' $?
cmp -s "$room/piped" "$room/long.sym" || wrong 'other symbols came through the pipe'

start 'short work on a terminal says nothing there'
program=(timeout 30 python3 "$top/checks/black_box/terminal.py" "$room/shown" '' 1 "$dtx")
run 0 'packets 3000 segments 3010 loose 0' code ../inputs/long.ts out.sym
run 4 'absent missing.ts' code missing.ts out.sym
[[ ! -s $room/shown ]] || wrong "the terminal showed '$(cat "$room/shown")'"

#!/usr/bin/env bash
# Tries the built program on real files, from outside: its status, what it prints, each byte that it
# writes, and what stands after a refusal. What it must write is made here, and never by dtx.
# Names what fails, and ends with the line `black box: N passed, M failed`. Where the first word is `--released`, it tries the released
# program. Other words name the parts that are tried, all where there are none: a part may need files that those before it make.

set -u
umask 022
export LC_ALL=C
top=$(cd "$(dirname "${BASH_SOURCE[0]}")/.." && pwd) || exit 1
dtx=$top/dtx
if [[ ${1-} == --released ]]; then
    dtx=$top/release/dtx
    # The launcher `dtx` ignores this signal for the program.
    trap '' XFSZ
    shift
fi
parts=("$@")
usage='usage: dtx adapt|code|excite|receive|net|make|hurt|place|trial|soft|mend|dvb|repeat|acquire|watch|level|refine'

if [[ $("$dtx" </dev/null) != "$usage" ]]; then
    echo 'FAILED: the program could not be built'
    echo 'black box: 0 passed, 1 failed'
    exit 1
fi

# The program itself, without its launcher.
binary=$dtx
[[ $dtx != "$top/dtx" ]] || binary=$("$top/build" --which) || exit 1

room=$(mktemp -d) || exit 1
trap 'chmod -R u+w "$room"; rm -rf "$room"' EXIT
chmod 755 "$room"
inputs=$room/inputs
folder=$room/folder
mkdir "$inputs"

# ---- Cases ----
# What cases run, where they set no other `program`; a part may set another one for all of its own.
usual=("$dtx")
program=("${usual[@]}")
passed=0
failed=0
title=
wrongs=()

# Begins a case in an empty folder, in which its program runs.
start() {
    finish
    title=$1
    program=("${usual[@]}")
    rm -rf "$folder"
    mkdir "$folder"
    cd "$folder" || exit 1
}

finish() {
    [[ $title ]] || return
    if ((${#wrongs[@]})); then
        failed=$((failed + 1))
        printf 'FAILED: %s\n' "${wrongs[@]/#/$title: }"
    else
        passed=$((passed + 1))
    fi
    title=
    wrongs=()
}

wrong() {
    wrongs+=("$1")
}

# left_out WHAT PACKAGE: says what is not tried, and which package would change that.
left_out() {
    printf 'left out: %s: install %s\n' "$1" "$2"
}

# run STATUS LINE WORD..: the program, given the words, ends with the status, prints just that line,
# or nothing where it is empty, and changes no input.
run() {
    local status=$1 line=$2
    shift 2
    "${program[@]}" "$@" >"$room/said" 2>"$room/complaint"
    ended "$status" $?
    printf '%s' "$line${line:+$'\n'}" | cmp -s "$room/said" - ||
        wrong "printed '$(cat -v "$room/said")', not '$line'"
}

# ended WANTED STATUS: a run ended with that status, said nothing on standard error, and changed no input.
ended() {
    [[ $1 == "$2" ]] || wrong "status $2, not $1"
    [[ ! -s $room/complaint ]] || wrong "on standard error: $(head -n 1 "$room/complaint")"
    [[ $(sums) == "$inputs_before" ]] || wrong 'an input was changed'
}

# fills_up SIZE WHOLE WORD..: where a file may hold no more than so many kB, the program, given the words, the last of
# which names its output, ends with a write fault, and leaves a front part of WHOLE there, which isn't empty.
fills_up() {
    local size=$1 whole=$2 out=${!#}
    shift 2
    (
        ulimit -f "$size"
        "$dtx" "$@" >"$room/said" 2>"$room/complaint"
    )
    ended 12 $?
    [[ $(cat "$room/said") == 'write fault' ]] || wrong "printed $(cat "$room/said")"
    is_begun "$out" "$whole"
    leaves "$out"
}

# is_front FILE WHOLE: the file is a front part of the whole one.
is_front() {
    head -c "$(stat -c %s "$1")" "$2" | cmp -s - "$1" || wrong "${1##*/} is no front part of ${2##*/}"
}

# is_begun FILE WHOLE: and not empty.
is_begun() {
    [[ -s $1 ]] || wrong "${1##*/} is empty"
    is_front "$1" "$2"
}

# refuses_files WORD..: what the command of these words, of an input and an output, refuses of its files.
refuses_files() {
    local shows input output status line
    # A blank of a line is written as an underscore here.
    given 60 0
    while read -r shows input output status line; do
        start "\`$*\` is refused: $shows"
        mkdir folder
        run "$status" "${line//_/ }" "$@" "$input" "$output"
        leaves folder
    done <<'end'
a_missing_input missing out 4 absent_missing
an_input_that_is_a_folder folder out 11 read_fault
an_output_that_is_a_folder ../inputs/given.ts folder 12 write_fault
an_output_in_a_folder_that_is_not_there ../inputs/given.ts nowhere/out 12 write_fault
a_missing_input_before_such_an_output missing nowhere/out 4 absent_missing
equal_names ../inputs/given.ts ../inputs/given.ts 3 same_../inputs/given.ts
equal_names_that_are_missing missing missing 3 same_missing
end
}

# refuses_symbols_and_log INPUT WHOLE COMMAND WORD..: what the command, given the input and these words, refuses of its files, and what it leaves
# where the symbols that it writes fill up their file. Those of the input are WHOLE.
refuses_symbols_and_log() {
    local given=$1 whole=$2 command=$3 shows input symbols log status line left
    shift 3
    while read -r shows input symbols log status line left; do
        start "\`$command\` is refused: $shows"
        mkdir folder
        run "$status" "${line//_/ }" "$command" "$input" "$@" "$symbols" "$log"
        leaves folder ${left:+"$left"}
        [[ ! $left || (-f $left && ! -s $left) ]] || wrong "$left is not empty"
    done <<end
a_missing_input missing out.sym out.log 4 absent_missing
an_input_that_is_a_folder folder out.sym out.log 11 read_fault
symbols_for_a_folder $given folder out.log 12 write_fault
a_log_for_a_folder $given out.sym folder 12 write_fault out.sym
end
    start "\`$command\`: symbols that fill up their output in mid-stream"
    (
        ulimit -f 600
        "$dtx" "$command" "$given" "$@" out.sym out.log >"$room/said" 2>"$room/complaint"
    )
    ended 12 $?
    is_begun out.sym "$whole"
}

# agrees COMMAND INPUT OUT: what the command prints of the input and writes to OUT is what the program of its name prints and writes that
# shares nothing with dtx. Both files stay, the other one as `wanted` with the same suffix.
agrees() {
    local command=$1 input=$2 out=$3 line
    line=$("$top/checks/independent/$command.py" "$command" "$input" "wanted.${out##*.}")
    run 0 "$line" "$command" "$input" "$out"
    cmp -s "wanted.${out##*.}" "$out" || wrong "$(cmp "wanted.${out##*.}" "$out" 2>&1)"
}

# has_digest FILE DIGEST: the file is the one that a program made which shares nothing with dtx.
has_digest() {
    [[ $(sha256sum <"$1") == "$2  -" ]] || wrong "$1 is another file"
}

# leaves NAME..: those names stand in the case's folder, and no others.
leaves() {
    local found wanted
    found=$(find . -mindepth 1 | sort)
    wanted=$(printf './%s\n' "$@" | sort)
    [[ $found == "$wanted" ]] || wrong "left '${found//$'\n'/ }', not '${wanted//$'\n'/ }'"
}

leaves_nothing() {
    [[ ! $(find . -mindepth 1) ]] || wrong "left $(find . -mindepth 1 | head -n 1)"
}

# are_empty FILE..: the files are there and empty.
are_empty() {
    local file
    for file in "$@"; do
        [[ -f $file && ! -s $file ]] || wrong "$file is not empty"
    done
}

# holds FILE PACKETS: the file is the feed of that many packets of the long stream, byte for byte.
holds() {
    local difference
    difference=$(head -c $(($2 * 188)) "$room/long.feed" | cmp "$1" - 2>&1) ||
        wrong "$1 is not the feed of $2 packets (${difference%%$'\n'*})"
}

# differ_in BYTE OLD NEW STREAM OTHER INDEX..: the other stream is the stream but for that byte of those packets, which is NEW in place of
# OLD, both in octal digits.
differ_in() {
    local byte=$1 old=$2 new=$3 stream=$4 other=$5 index changes
    shift 5
    changes=$(cmp -l "$stream" "$other" 2>&1 | sed 's/^ *//; s/  */ /g')
    for index in "$@"; do
        printf '%d %s %s\n' $((index * 188 + byte + 1)) "$old" "$new"
    done | cmp -s - <(printf '%s\n' "$changes") || wrong "changed: ${changes//$'\n'/, }"
}

# are_marked STREAM FEED INDEX..: the feed is the stream but for byte 0 of those packets, B8 in place of 47.
are_marked() { differ_in 0 107 270 "$@"; }

# ---- Streams ----
placeholder=1ffa
every_byte=$(printf '\\x%02x' {0..255} {0..255})

# packet SYNC PID INDEX: a packet of 188 bytes, SYNC and PID in hexadecimal; the three bits above a PID
# may be set too. Its body tells its index, and 256 packets have each byte at nearly each place.
packet() {
    local pid=$((16#$2)) header
    printf -v header '\\x%s\\x%02x\\x%02x\\x%02x' "$1" $((pid / 256)) $((pid % 256)) $((16 + $3 % 16))
    printf '%b%08d%b' "$header" "$3" "${every_byte:4 * ($3 % 256):4 * 176}"
}

# A stream of several pieces, and what its feed must be: byte 0 is B8 where 624 divides the packet's number.
long=3000
for ((index = 0; index < long; index++)); do
    packet 47 31 $index
done >"$inputs/long.ts"
for ((index = 0; index < long; index++)); do
    sync=47
    ((index % 624)) || sync=b8
    packet $sync 31 $index
done >"$room/long.feed"

# given PACKETS LOOSE: makes ../inputs/given.ts of the long stream's first packets and some loose bytes.
given() {
    head -c $(($1 * 188 + $2)) "$inputs/long.ts" >"$inputs/given.ts"
    inputs_before=$(sums)
}

# spoil INDEX SYNC PID: replaces that packet of ../inputs/given.ts.
spoil() {
    packet "$2" "$3" "$1" | dd of="$inputs/given.ts" bs=188 seek="$1" conv=notrunc status=none
    inputs_before=$(sums)
}

# spoil_all INDEX:SYNC:PID,..: replaces those packets of ../inputs/given.ts.
spoil_all() {
    local each index sync pid
    for each in ${1//,/ }; do
        IFS=: read -r index sync pid <<<"$each"
        spoil "$index" "$sync" "$pid"
    done
}

sums() {
    cksum "$inputs"/*
}

# zeros COUNT: so many bytes of zero.
zeros() {
    head -c "$1" /dev/zero
}

# ---- Plans ----

# The plan of two transmitters of the examples.
cp "$top/examples/two-sites.toml" "$inputs/plan.toml"
plan=../inputs/plan.toml

# plan_of FIRST COUNT: a plan of so many transmitters, with the addresses from FIRST on, all at the common moment.
plan_of() {
    printf 'start = 0\nmax_delay = 5000000\n'
    seq -f $'[[transmitter]]\naddress = %.0f\noffset = 0' "$1" $(($1 + $2 - 1))
}

# ---- The cases, subject by subject ----

((${#parts[@]})) || parts=(launcher adapt plans make code receive excite hurt place net pages small trial soft mend dvb repeat acquire refine level watch
    names overlaps words refused_streams refused_files forbidden_files host_faults pipes each_call progress many)
for part in "${parts[@]}"; do
    usual=("$dtx")
    . "$top/checks/black_box/$part.sh"
done

finish
printf 'black box: %d passed, %d failed\n' "$passed" "$failed"
((failed == 0))

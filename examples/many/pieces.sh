# shellcheck shell=bash
# What the scripts of this folder share, to be sourced by them: pieces are cut into a folder of their own, a command of
# dtx runs on each, and what they gave is joined only where all are done.
#
# Piece N has its input in-N, and words-N, the words that dtx is given for it; it gives out-N, log-N where the command
# has a log, its line in line-N, and its status in status-N. `piece.sh N` in that folder runs it, here or elsewhere.
#
# The pieces run side by side on the processors of this machine, by xargs. With PARALLEL=1 they run by GNU parallel, and
# with SSHLOGIN=.. on the machines that its option --sshlogin takes. With SLURM=1 they run as an array of jobs over a
# shared folder. FOLDER=.. names the folder of the pieces, which is else one of temporary files.

set -o pipefail
export LC_ALL=C
here=$(cd "$(dirname "${BASH_SOURCE[0]}")" && pwd -P)
processors=$(getconf _NPROCESSORS_ONLN)
packet=188
segment=832
unfinished=()
folder=

# Takes away what isn't finished when a script ends.
clear_up() {
    rm -f -- "${unfinished[@]}"
    [[ ${FOLDER-} || ! $folder ]] || rm -rf "$folder"
}
trap clear_up EXIT

fail() {
    printf '%s\n' "$1" >&2
    exit 1
}

# answer STATUS LINE: ends as dtx does with that line.
answer() {
    printf '%s\n' "$2"
    exit "$1"
}

# asks_for FILE: ends as dtx does where the file isn't there, or is none that can be read at places.
asks_for() {
    [[ -e $1 ]] || answer 4 "absent $1"
    [[ -f $1 && -r $1 ]] || answer 11 'read fault'
}

# are_apart NAME..: ends as dtx does where two of the names are equal, or lead to one file.
are_apart() {
    local first second
    for ((second = 2; second <= $#; second++)); do
        for ((first = 1; first < second; first++)); do
            [[ ${!first} == "${!second}" || ${!first} -ef ${!second} ]] && answer 3 "same ${!second}"
        done
    done
}

# Makes the folder of the pieces, which holds the built program too: a machine elsewhere needs nothing else.
make_folder() {
    local program
    program=$("${here%/*/*}/build" --which) || fail 'the program could not be built'
    if [[ ${FOLDER-} ]]; then
        folder=$FOLDER
        mkdir -p -- "$folder" || exit 1
        folder=$(cd -- "$folder" && pwd -P) || exit 1
        rm -f "$folder"/{in,out,log,line,words,status}-* "$folder"/front*
    else
        [[ ${SLURM-} != 1 ]] || fail 'SLURM=1 asks for FOLDER=.., a folder that all machines share'
        folder=$(mktemp -d) || exit 1
    fi
    cp "$program" "$here/piece.sh" "$folder" || exit 1
}

# beside NAME: sets `made` to an empty file beside the name, to be renamed once it is whole.
beside() {
    [[ ! -d $1 ]] || answer 12 'write fault'
    made=$(mktemp -- "$1.XXXXXX") || answer 12 'write fault'
    chmod -- "$(printf %o $((0666 & ~0$(umask))))" "$made"
    unfinished+=("$made")
}

# units FILE SIZE: how many whole units of that size the file has.
units() {
    echo $(($(stat -L -c %s -- "$1") / $2))
}

# part FILE SIZE FROM TO INTO: units FROM to TO - 1 of the file, or all bytes from unit FROM on where TO is nothing.
part() {
    local count=()
    [[ ! $4 ]] || count=(count=$((($4 - $3) * $2)))
    dd if="$1" of="$5" bs=1M iflag=skip_bytes,count_bytes skip=$(($3 * $2)) "${count[@]}" status=none
}

# put FILE COUNT INTO PLACE: the first bytes of the file, so many, from that byte of another one on.
put() {
    dd if="$1" of="$3" bs=1M iflag=count_bytes count="$2" oflag=seek_bytes seek="$4" conv=notrunc status=none
}

# beside_others COMMAND..: does it beside others, as many as there are processors; `others_done` waits for all of them.
# Where one fails, so does the script.
others=()
beside_others() {
    if ((${#others[@]} >= processors)); then
        wait "${others[0]}" || fail 'a piece could not be cut or joined'
        others=("${others[@]:1}")
    fi
    "$@" &
    others+=($!)
}

others_done() {
    local other
    for other in "${others[@]}"; do
        wait "$other" || fail 'a piece could not be cut or joined'
    done
    others=()
}

# has_words N WORD..: piece N is what dtx does for these words.
has_words() {
    printf '%s\n' "${*:2}" >"$folder/words-$1" || exit 1
}

# by_parallel COUNT LOG: the pieces by GNU parallel, where LOG is not empty with a log. It has a variable PARALLEL of its
# own, which isn't ours, and keeps notes in the home, where there is one.
by_parallel() {
    local elsewhere=()
    if [[ ${SSHLOGIN-} ]]; then
        elsewhere=(--sshlogin "$SSHLOGIN" --workdir "dtx-pieces-$$" --cleanup --basefile dtx --basefile piece.sh
            --transferfile in-{} --transferfile words-{} --return out-{} --return line-{} --return status-{})
        [[ ! $2 ]] || elsewhere+=(--return log-{})
    fi
    seq 0 $(($1 - 1)) | env -u PARALLEL HOME="${HOME:-$folder}" parallel "${elsewhere[@]}" ./piece.sh {}
}

# run_all COUNT [LOG]: runs all pieces. Where one isn't done, the first such one's line is printed, and its status is ours.
run_all() {
    local many=$1 log=${2-} number status
    (
        cd "$folder" || exit 1
        if [[ ${SLURM-} == 1 ]]; then
            sbatch --wait --array=0-$((many - 1)) "$here/slurm.sh" >&2
        elif [[ ${PARALLEL-} == 1 || ${SSHLOGIN-} ]]; then
            by_parallel "$many" "$log"
        else
            seq 0 $((many - 1)) | xargs -P "$processors" -n 1 ./piece.sh
        fi
    )
    for ((number = 0; number < many; number++)); do
        status=$(cat "$folder/status-$number" 2>/dev/null)
        [[ $status == 0 ]] && continue
        answer "${status:-1}" "piece $number: $(cat "$folder/line-$number" 2>/dev/null || echo 'it did not run')"
    done
}

# same_where_both FILE FROM OTHER WHAT: the rest of the file from that byte on is a front part of the other one.
same_where_both() {
    local rest=$(($(stat -c %s -- "$1") - $2))
    ((rest <= $(stat -c %s -- "$3"))) && cmp -s -i "$2:0" -n "$rest" "$1" "$3" || fail "the pieces differ at a seam: $4"
}

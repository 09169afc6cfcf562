# Each call of the host fails in turn: what a command answers then, and what it leaves. A library in front of the system's own makes one read,
# write or growth of memory fail; it is built here, where there is a C compiler.

# with_calls WORD..: runs the program, given the words, in front of whose calls the library stands.
with_calls() {
    LD_PRELOAD=$room/calls/fails.so "$binary" "$@" >"$room/said" 2>"$room/complaint"
}

# calls_of KIND WORD..: how many calls of that kind the program makes.
calls_of() {
    COUNTED=$room/counted FAILS=$1:0 with_calls "${@:2}"
    cat "$room/counted"
}

# each_fails KIND STATUS LINE WORD..: the program, given the words, in each run of which one more call of that kind fails: it ends with the status
# and the line, and leaves of each of its first outputs a front part of what a run leaves that isn't disturbed, and the others as they were
# before. A stream is never held whole: where its last read fails, at least half of the output stands.
each_fails() {
    local kind=$1 status=$2 line=$3 calls number file left=0 all=0
    shift 3
    calls=$(calls_of "$kind" "$@")
    ((calls > 0)) || wrong "$1 makes no $kind"
    for ((number = 1; number <= calls; number++)); do
        rm -f -- *
        for file in "$room"/whole/*; do
            cp "$room/calls/before" "${file##*/}"
        done
        FAILS=$kind:$number with_calls "$@"
        ended "$status" $?
        # Where there is no memory for the words, there is none for a line.
        [[ $(cat "$room/said") == "$line" || $kind == memory && ! -s $room/said ]] ||
            wrong "$kind $number of $1: printed $(cat -v "$room/said")"
        are_fronts
        for file in out.{sym,ts,dvb,txt}; do
            [[ ! -e $file ]] || left=$(stat -c %s "$file") all=$(stat -c %s "$room/whole/$file")
        done
        ((${#wrongs[@]} < 3)) || return
    done
    [[ $kind != read ]] || ((2 * left >= all)) || wrong "where the last read of $1 fails, $left bytes stand of $all"
}

# are_fronts: the outputs that were begun are the first ones, and each is a front part of the whole one.
are_fronts() {
    local file all_begun=1
    for file in $(outputs); do
        if cmp -s "$room/calls/before" "$file"; then
            all_begun=
        else
            [[ $all_begun ]] || wrong "$file was begun, and one before it wasn't"
            is_front "$file" "$room/whole/$file"
        fi
    done
}

# outputs: the files of the undisturbed run, in the order in which they are begun.
outputs() {
    local file
    for file in out.{ts,sym,dvb,txt,log} trial.ts net.feed tx-{1,2,3,7,9}.{sym,log} net.ts; do
        [[ ! -e $room/whole/$file ]] || printf '%s\n' "$file"
    done
}

if ! command -v cc >/dev/null; then
    left_out 'each call of the host that fails' 'a C compiler, as gcc'
else
    mkdir "$room/calls"
    cat >"$room/calls/fails.c" <<'end'
#define _GNU_SOURCE
#include <dlfcn.h>
#include <errno.h>
#include <stdio.h>
#include <stdlib.h>
#include <string.h>
#include <unistd.h>

static long count;

/* FAILS=KIND:NUMBER names the call that fails, counted from 1. */
static int fails(const char *kind) {
    const char *plan = getenv("FAILS");
    size_t length = strlen(kind);
    return plan && !strncmp(plan, kind, length) && ++count == atol(plan + length + 1);
}

ssize_t read(int file, void *bytes, size_t count) {
    ssize_t (*call)(int, void *, size_t) = dlsym(RTLD_NEXT, "read");
    if (file > 2 && fails("read")) {
        errno = EIO;
        return -1;
    }
    return call(file, bytes, count);
}

ssize_t write(int file, const void *bytes, size_t count) {
    ssize_t (*call)(int, const void *, size_t) = dlsym(RTLD_NEXT, "write");
    if (file > 2 && fails("write")) {
        errno = ENOSPC;
        return -1;
    }
    return call(file, bytes, count);
}

/* COUNTED names a file that is told how many calls of the kind there were. */
__attribute__((destructor)) static void tell(void) {
    const char *name = getenv("COUNTED");
    long calls = count;
    FILE *file = name ? fopen(name, "w") : NULL;
    if (file) {
        fprintf(file, "%ld\n", calls);
        fclose(file);
    }
}

void *__libc_malloc(size_t size);
void *malloc(size_t size) {
    if (fails("memory")) {
        errno = ENOMEM;
        return NULL;
    }
    return __libc_malloc(size);
}
end
    cc -shared -fPIC -O1 -o "$room/calls/fails.so" "$room/calls/fails.c" -ldl 2>"$room/complaint"
    printf 'as before' >"$room/calls/before"
    "$dtx" make 1 700 "$inputs/calls.ts" >"$room/said"
    "$dtx" adapt "$inputs/plan.toml" "$inputs/calls.ts" "$inputs/calls.feed" >"$room/said"
    "$dtx" code "$inputs/calls.ts" "$inputs/calls.sym" >"$room/said"
    "$dtx" code "$inputs/calls.feed" "$inputs/calls.air" >"$room/said"
    # A round holds a field, and this capture has five.
    "$dtx" make 1 1300 "$inputs/calls.long" >"$room/said"
    "$dtx" code "$inputs/calls.long" "$inputs/calls.fields" >"$room/said"
    "$dtx" dvb code "$inputs/calls.ts" "$inputs/calls.dvb" >"$room/said"
    printf 'damage = [{ at = 1000, count = 100000, put = 1 }]\n' >"$inputs/calls.changes"
    sed '/^\[net\]/,$d' "$inputs/plan.toml" >"$inputs/calls.plan"
    printf '[net]\nstream = "../inputs/calls.ts"\n' >>"$inputs/calls.plan"
    printf '[[net.event]]\ndo = "send"\nto = %d\nfrom = 0\ncount = %d\n' 7 700 9 60 >>"$inputs/calls.plan"
    printf '[[net.event]]\ndo = "restart"\nto = 9\n[net.receive]\nfrom = 7\n' >>"$inputs/calls.plan"
    printf '[[net.receive.damage]]\nat = 400000\ncount = 20\nput = 3\n' >>"$inputs/calls.plan"
    inputs_before=$(sums)
    while read -ra words; do
        start "each call of \`${words[*]}\` fails in turn"
        rm -rf "$room/whole"
        mkdir "$room/whole"
        (cd "$room/whole" && "$dtx" "${words[@]}") >"$room/said" 2>"$room/complaint"
        ended 0 $?
        # `make` reads nothing.
        [[ ${words[0]} == make ]] || each_fails read 11 'read fault' "${words[@]}"
        each_fails write 12 'write fault' "${words[@]}"
        each_fails memory 13 'no memory' "${words[@]}"
    done <<'end'
adapt ../inputs/plan.toml ../inputs/calls.ts out.ts
code ../inputs/calls.ts out.sym
excite ../inputs/calls.feed 7 1000 out.sym out.log
receive ../inputs/calls.sym out.ts
soft ../inputs/calls.sym out.sym
mend ../inputs/calls.sym out.ts
repeat ../inputs/calls.air 7 1000 out.sym out.log
acquire 1 ../inputs/calls.sym out.sym
refine 1 1 ../inputs/calls.fields out.sym
level ../inputs/calls.sym out.sym out.log
watch ../inputs/calls.feed out.txt
dvb code ../inputs/calls.ts out.dvb
dvb read ../inputs/calls.dvb out.ts
place ../inputs/calls.ts out.ts
hurt ../inputs/calls.sym ../inputs/calls.changes out.sym
make 1 1000 out.ts
net ../inputs/calls.plan
trial 1 624
end

    # The first transmitter is given the feed in two parts, and the other one whole between them; the last append is one of the first one's.
    start 'a network breaks off at one step for all'
    { network ../inputs/calls.ts && send 7 0 300 && send 9 0 700 && send 7 300 400; } >"$inputs/calls.plan"
    inputs_before=$(sums)
    rm -rf "$room/whole"
    mkdir "$room/whole"
    (cd "$room/whole" && "$dtx" net ../inputs/calls.plan) >"$room/said" 2>"$room/complaint"
    ended 0 $?
    [[ $(cat "$room/said") == 'feed 700 filled 2 steps 1400' ]] || wrong "printed $(cat "$room/said")"
    cmp -s "$room/whole/tx-7.sym" "$room/whole/tx-9.sym" || wrong 'the two send other symbols'
    FAILS=write:$(calls_of write net ../inputs/calls.plan) with_calls net ../inputs/calls.plan
    ended 12 $?
    [[ $(cat "$room/said") == 'write fault' ]] || wrong "printed $(cat "$room/said")"
    for file in net.feed tx-7.log tx-9.sym tx-9.log; do
        cmp -s "$room/whole/$file" $file || wrong "$file is not whole"
    done
    is_front tx-7.sym "$room/whole/tx-7.sym"
    cut=$(($(stat -c %s "$room/whole/tx-7.sym") - $(stat -c %s tx-7.sym)))
    ((0 < cut && cut <= 3328)) || wrong "tx-7.sym lacks $cut bytes"
    rm "$inputs"/calls.*
    inputs_before=$(sums)
fi

# shellcheck shell=bash
# What the measures of whole commands share, to be sourced by them. It gives `top`, the built `program`, and a folder
# `room` that goes when the measure ends; `pinned`, the words that keep a command to one processor; and `best`, the
# shortest time of each name in microseconds.

export LC_ALL=C
top=$(cd "$(dirname "${BASH_SOURCE[0]}")/../.." && pwd)
# The program is measured without its launcher.
program=$("$top/build" --which) || exit 1
room=$(mktemp -d)
trap 'rm -rf "$room"' EXIT

pinned=()
if command -v taskset >/dev/null; then
    pinned=(taskset -c "$(taskset -cp $$ | sed 's/.*[^0-9]//')")
fi

declare -A best=()

# timed COMMAND..: the time of the command, in microseconds; a command that fails ends the measure.
timed() {
    local begun=${EPOCHREALTIME/./}
    "${pinned[@]}" "$@" >"$room/said" || return
    echo $((${EPOCHREALTIME/./} - begun))
}

# measure NAME OUT COMMAND..: keeps the shortest time of the command, which writes OUT anew, under the name.
measure() {
    local name=$1 taken
    rm -f "$2"
    shift 2
    taken=$(timed "$@")
    if [[ ! ${best[$name]-} || $taken -lt ${best[$name]} ]]; then
        best[$name]=$taken
    fi
}

# within NAME BAR OTHER..: says how many times as long the one takes as the others together, and whether that is within the bar.
within() {
    local name=$1 bar=$2 each than=0
    shift 2
    for each in "$@"; do
        than=$((than + best[$each]))
    done
    awk -v name="$name" -v others="$*" -v time="${best[$name]}" -v than=$than -v bar="$bar" \
        'BEGIN { printf "%s takes %.2f times as long as %s (bar: %s)\n", name, time / than, others, bar; exit time > bar * than }'
}

# network STREAM PACKETS TRANSMITTERS: the plan of a network, each transmitter of which is given so many packets of the feed.
network() {
    printf 'start = 0\nmax_delay = 5000000\n'
    printf '[[transmitter]]\naddress = %d\noffset = 0\n' $(seq "$3")
    printf '[net]\nstream = "%s"\n' "$1"
    printf '[[net.event]]\ndo = "send"\nto = %d\nfrom = 0\ncount = '"$2"'\n' $(seq "$3")
}

# memory COMMAND..: the most kB that the command held at a time.
memory() {
    if [[ -x /usr/bin/time ]]; then
        /usr/bin/time -f %M -o "$room/memory" "$@" >"$room/said"
        cat "$room/memory"
    else
        python3 - "$@" <<'end'
import resource, subprocess, sys
subprocess.run(sys.argv[1:], stdout=subprocess.DEVNULL, check=True)
print(resource.getrusage(resource.RUSAGE_CHILDREN).ru_maxrss)
end
    fi
}

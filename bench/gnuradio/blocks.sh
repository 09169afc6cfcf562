# shellcheck shell=bash
# What the measures beside GNU Radio share. They source it after timing.sh. It finds the Python that GNU Radio's
# blocks are installed for, cuts the part of the symbols that they get, and prints the times of both. examples/radio
# and checks/radio.sh source it only to find that Python.

# GNU Radio is slow, so it gets a part of the symbols: so many whole fields.
few_fields=34
field_symbols=$((313 * 832))
field_packets=312

# cut_fields FILE: makes few.sym, the part of its symbols that GNU Radio gets, and least.sym, one field of them.
cut_fields() {
    head -c $((few_fields * field_symbols)) "$1" >"$room/few.sym"
    head -c $field_symbols "$1" >"$room/least.sym"
}

# without_start LEAST FEW OUT COMMAND..: how long the command, whose words are followed by an input and an output, takes for FEW, less what it
# takes for LEAST, in microseconds: its start is no part of the work.
without_start() {
    local least=$1 few=$2 out=$3 start whole
    shift 3
    start=$(timed "$@" "$least" "$out") || return
    whole=$(timed "$@" "$few" "$out") || return
    echo $((whole - start))
}

# Sets `gnuradio_python`; the status is not 0 where there is none.
find_gnuradio() {
    for gnuradio_python in python3 /usr/bin/python3; do
        if "$gnuradio_python" -c 'from gnuradio import dtv' 2>/dev/null; then
            return 0
        fi
    done
    return 1
}

# Ends the script where there is none, which is no failure.
need_gnuradio() {
    find_gnuradio && return
    echo 'GNU Radio is not installed here'
    exit 0
}

# rate NAME PACKETS MICROSECONDS
rate() {
    awk -v name="$1" -v packets="$2" -v time="$3" \
        'BEGIN { printf "%-12s %7.3f s %7.1f MB/s of transport stream %6.0f ns a packet\n", name, time / 1e6, packets * 188 / time, time * 1e3 / packets }'
}

# compared NAME PACKETS FEW MICROSECONDS BAR: tells the time that GNU Radio took for FEW packets, and how many times as fast the
# command of that name is, which was measured over PACKETS. The status is 0 where it is at least BAR times as fast.
compared() {
    rate 'GNU Radio' "$3" "$4"
    awk -v name="$1" -v time="${best[$1]}" -v packets="$2" -v few="$3" -v other="$4" -v bar="$5" 'BEGIN {
        ratio = (other / few) / (time / packets)
        printf "%s is %.1f times as fast (bar: %d)\n", name, ratio, bar
        exit ratio < bar
    }'
}

# back FILE: how many packets of the stream in.ts are among those of the file, and how many it has.
back() {
    "$gnuradio_python" -c '
import sys
stream, given = (open(name, "rb").read() for name in sys.argv[1:])
packets = {stream[i + 1 : i + 188] for i in range(0, len(stream), 188)}
print(sum(given[i + 1 : i + 188] in packets for i in range(0, len(given) - 187, 188)), "of", len(given) // 188)' \
        "$room/in.ts" "$1"
}

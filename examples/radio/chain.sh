# shellcheck shell=bash
# What try.sh and bench/gnuradio/radio.sh share, to be sourced: a network, and the way of its symbols through a channel
# and back. It gives `radio`, the folder of these scripts, and `dtx`, the launcher. All files are in the folder at hand.

export LC_ALL=C
radio=$(cd "$(dirname "${BASH_SOURCE[0]}")" && pwd -P)
dtx=${radio%/*/*}/dtx
. "${radio%/*/*}/bench/gnuradio/blocks.sh"
if ! find_gnuradio; then
    echo "GNU Radio is not found: it is Debian's packages gnuradio and python3-numpy" >&2
    exit 1
fi

# quiet COMMAND..: what it says goes to the file `said`, and is shown where it fails.
quiet() {
    "$@" >said 2>&1 || { cat said >&2; return 1; }
}

# sends ADDRESS FROM COUNT: an event of a plan.
sends() {
    printf '[[net.event]]\ndo = "send"\nto = %d\nfrom = %d\ncount = %d\n' "$@"
}

# network PACKETS OFFSET EVENTS: what transmitters 7 and 9 send of a made stream, 9 so many ticks later than 7, which is
# given all of it; the events are those of 9.
network() {
    {
        printf 'start = 0\nmax_delay = 5000000\n'
        printf '[[transmitter]]\naddress = %d\noffset = %d\n' 7 0 9 "$2"
        printf '[net]\nstream = "stream.ts"\n'
        sends 7 0 "$1"
        printf '%s\n' "$3"
    } >plan.toml
    quiet "$dtx" make 1 "$1" stream.ts
    quiet "$dtx" net plan.toml
}

# through WORD..: what comes of it through a channel, as modulate.py has the words, and behind the front end. Where
# `theirs` names a file, it is what GNU Radio's own decoder makes of that.
through() {
    quiet "$gnuradio_python" "$radio/modulate.py" air.iq "$@"
    quiet "$gnuradio_python" "$radio/demodulate.py" 8e6 air.iq front.sym ${theirs:+"$theirs"}
}

# back [FROM [SYMBOLS]]: which packets come back, from that one of the feed on, of the symbols behind the front end
# when they are equalized, or of these when they are levelled alone.
back() {
    if [[ ${2-} ]]; then
        quiet "$dtx" level "$2" air.sym air.log
    else
        quiet "$gnuradio_python" "$radio/equalize.py" front.sym air.sym taps.txt
    fi
    quiet "$dtx" acquire 8 air.sym found.sym
    quiet "$dtx" receive found.sym back.ts
    "$gnuradio_python" "$radio/compare.py" net.feed back.ts "${1-0}"
}

#!/usr/bin/env bash
# Where GNU Radio is installed, tries examples/radio: a network's symbols go through a channel with an echo and noise,
# and come back, and so do those of one transmitter without an equalizer. At least so many packets have to be right, and
# none wrong without a flag. Exact lines aren't asked for, since the figures hang on GNU Radio. The last line is
# `radio: N passed, M failed`.

set -u
export LC_ALL=C
top=$(cd "$(dirname "${BASH_SOURCE[0]}")/.." && pwd) || exit 1
room=$(mktemp -d) || exit 1
trap 'rm -rf "$room"' EXIT
cd "$room" || exit 1
. "$top/bench/gnuradio/blocks.sh"
if ! find_gnuradio; then
    echo 'left out: examples/radio: install gnuradio python3-numpy'
    echo 'radio: 0 passed, 0 failed'
    exit 0
fi
. "$top/checks/counting.sh"
said=said

# comes_back LEAST LINE: at least so many are right, and none is wrong.
comes_back() {
    echo "$2"
    [[ $2 =~ right\ ([0-9]+)\ flagged\ [0-9]+\ wrong\ 0$ ]] && ((BASH_REMATCH[1] >= $1))
}

# levelled: one transmitter's symbols, which `level` brings to their scale and nothing equalizes.
levelled() (
    mkdir alone && cd alone && . "$top/examples/radio/chain.sh" && network 2000 0 '' &&
        through --send tx-7.sym tx-7.log 0 0 0 --noise 18 && back 0 front.sym
)

# refused WORD..: the script says in a line what is wrong, and no traceback.
refused() {
    ! "$gnuradio_python" "$top/examples/radio/$1" "${@:2}" >lines 2>&1 && ! grep -q Traceback lines && [[ -s lines ]]
}

field_sync() {
    "$gnuradio_python" -c '
import sys
sys.path.insert(0, sys.argv[1])
import vsb
sent = vsb.numpy.fromfile(sys.argv[2], dtype=vsb.numpy.int8).reshape(-1, vsb.SEGMENT)
sys.exit(any(list(sent[313 * k, :704]) != list(vsb.field_sync(k % 2)) for k in range(2)))' "$top/examples/radio" "$1"
}

# A packet with a wrong byte and no flag is counted.
tells_wrong() {
    { head -c 900 kept/back.ts; printf '?'; tail -c +902 kept/back.ts; } >changed.ts
    "$gnuradio_python" "$top/examples/radio/compare.py" kept/net.feed changed.ts >lines
    [[ $? == 1 && $(cat lines) == *' flagged 0 wrong 1' ]]
}

line=$("$top/examples/radio/try.sh" 2000 kept 2>&1)
holds 'two transmitters, one with an echo of the other' comes_back 1600 "$line"
line=$(levelled 2>&1)
holds 'one transmitter, levelled' comes_back 1600 "$line"
"$top/dtx" code kept/net.feed feed.sym >said
holds 'the field syncs' field_sync feed.sym
holds 'a packet that is wrong' tells_wrong
holds 'words of no number' refused modulate.py out --send kept/tx-7.sym kept/tx-7.log none 0 0
holds 'a log without a preset' refused modulate.py out --send kept/tx-7.sym kept/said 0 0 0
holds 'too few samples' refused demodulate.py 8e6 kept/tx-7.log out
holds 'symbols without a field sync' refused equalize.py kept/back.ts out
counts radio

#!/usr/bin/env bash
# Measures what examples/many/excite.sh gains on all processors of this machine: 1,000,000 packets given to one exciter, and the same in as
# many pieces as there are processors, at once. Three ways: the pieces alone, whose symbols go through pipes to readers that drop them, as they
# would to the next program; the pieces alone into files; and the whole script with its cut and its join. Into files it is the system that
# counts, since it has to find a fresh page for each 4 kB that is written, and to bring them to the disk: that gain changes from run to run.
# One process is taken by its better time, into a file or through a pipe. The best of three each, in one run. It needs 4 GB on the disk of
# temporary files. The status is 0 where the pieces alone, through pipes, gain at least 0.8 times the number of processors.

set -eu
rounds=3
bar=0.8
packets=1000000

. "$(dirname "${BASH_SOURCE[0]}")/timing.sh"
pinned=()
processors=$(getconf _NPROCESSORS_ONLN)
"$program" make 1 $packets "$room/in.ts" >"$room/said"
"$program" adapt "$top/examples/two-sites.toml" "$room/in.ts" "$room/feed.ts" >"$room/said"
rm "$room/in.ts"

# apart: the pieces of the folder at once, as the script runs them.
apart() {
    (cd "$room/pieces" && seq 0 $((processors - 1)) | xargs -P "$processors" -n 1 ./piece.sh)
}

# piped FOLDER COMMAND..: the command, beside which a reader takes what goes to each pipe of the folder.
piped() {
    local folder=$1 pipe
    shift
    for pipe in "$folder"/out-*; do
        cat "$pipe" >/dev/null &
    done
    "$@"
    wait
}

# one_piped: one exciter, whose symbols go to the pipe of its folder.
one_piped() {
    "$program" excite "$room/feed.ts" 7 1000 "$room/single/out-0" "$room/single/log"
}

mkdir "$room/single"
mkfifo "$room/single/out-0"
for ((round = 0; round < rounds; round++)); do
    measure one "$room/one.sym" "$program" excite "$room/feed.ts" 7 1000 "$room/one.sym" "$room/one.log"
    rm -rf "$room/pieces"
    FOLDER=$room/pieces measure all "$room/all.sym" \
        "$top/examples/many/excite.sh" "$processors" "$room/feed.ts" 7 1000 "$room/all.sym" "$room/all.log"
    cmp "$room/one.sym" "$room/all.sym"
    cmp "$room/one.log" "$room/all.log"
    rm "$room/all.sym" "$room/one.sym"
    measure apart "$room/pieces/out-0" apart
    rm "$room/pieces"/out-*
    measure single "$room/said" piped "$room/single" one_piped
    for ((piece = 0; piece < processors; piece++)); do
        mkfifo "$room/pieces/out-$piece"
    done
    measure pieces "$room/said" piped "$room/pieces" apart
done

one=$((best[one] < best[single] ? best[one] : best[single]))
# gain NAME MANY: how many times as fast the many are as one process.
gain() {
    awk -v name="$1" -v one=$one -v many="${best[$2]}" -v processors="$processors" \
        'BEGIN { printf "%s: %.2f times as fast on %d processors (%.2f of each)\n", name, one / many, processors, one / many / processors }'
}

printf '%d packets, best of %d: one process %.2f s into a file, %.2f s through a pipe\n' $packets $rounds \
    "$(awk -v t="${best[one]}" 'BEGIN { print t / 1e6 }')" "$(awk -v t="${best[single]}" 'BEGIN { print t / 1e6 }')"
gain 'cut, pieces and join' all
gain 'the pieces alone, into files' apart
gain 'the pieces alone, through pipes' pieces
awk -v one=$one -v many="${best[pieces]}" -v processors="$processors" -v bar=$bar 'BEGIN { exit one / many < bar * processors }'

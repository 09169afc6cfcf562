#!/usr/bin/env bash
# Measures what the line of progress costs: `dtx code` of a made stream of 800 MB, whose symbols are thrown away, where standard error is a
# terminal, beside the same where it isn't. All of it in one run, on one processor where `taskset` is there, each the best of five. It
# needs 0.8 GB on the disk of temporary files, and Python 3. The status is 0 where the line is shown and costs at most one percent.

set -eu
rounds=5
bar=1.01
packets=4255320

. "$(dirname "${BASH_SOURCE[0]}")/timing.sh"
terminal=$top/checks/black_box/terminal.py
"$program" make 1 $packets "$room/in.ts" >"$room/said"

# shellcheck disable=SC2016
for ((round = 0; round < rounds; round++)); do
    measure shown "$room/shown" python3 "$terminal" "$room/shown" '' 1 sh -c 'exec "$@"' sh "$program" code "$room/in.ts" /dev/null
    measure hidden "$room/hidden" python3 "$terminal" "$room/hidden" '' 1 sh -c 'exec "$@" 2>/dev/null' sh "$program" code "$room/in.ts" /dev/null
done

printf '800 MB, best of %d%s\n' $rounds "${pinned[*]:+, on one processor}"
printf 'the terminal showed %d bytes, and %d where standard error was none\n' "$(stat -c %s "$room/shown")" "$(stat -c %s "$room/hidden")"
[[ -s $room/shown ]]
awk -v shown="${best[shown]}" -v hidden="${best[hidden]}" -v bar=$bar \
    'BEGIN { printf "code takes %.4f times as long with the line of progress (bar: %s)\n", shown / hidden, bar; exit shown > bar * hidden }'

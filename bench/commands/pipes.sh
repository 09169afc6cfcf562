#!/usr/bin/env bash
# Measures what an input that is a pipe costs: `dtx code` of a made stream of 200 MB, and `dtx receive` of its symbols, which `cat` writes to
# the pipe, beside the same over files; what they write is thrown away. Beside them `cat` reads what another `cat` writes to a pipe, which
# shows what the pipe alone takes. All of it in one run, each the best of five, on as many processors as there are. Then 2 GB go through a
# pipe to `code`. It needs 1.1 GB on the disk of temporary files. The status is 0 where the speed over a pipe is at least 0.8 of that over a
# file, and `code` holds no more memory for 2 GB than for a thousandth of that, but for 256 kB.

set -eu
rounds=5
bar=0.8
packets=1063830

. "$(dirname "${BASH_SOURCE[0]}")/timing.sh"
pinned=()
cd "$room"
"$program" make 1 $packets in.ts >said
"$program" code in.ts in.sym >said
head -c 2000000 in.ts >few.ts

# piped FILE COMMAND: the command of the file, through a pipe.
piped() { cat "$1" | "$program" "$2" /dev/stdin /dev/null; }

# moved FILE: the file through a pipe, and no more.
moved() { cat "$1" | cat >/dev/null; }

status=0
while read -r command file; do
    for ((round = 0; round < rounds; round++)); do
        measure "$command file" none "$program" "$command" "$file" /dev/null
        measure "$command pipe" none piped "$file" "$command"
        measure "$command cat" none moved "$file"
    done
    awk -v command="$command" -v file="${best["$command file"]}" -v pipe="${best["$command pipe"]}" -v cat="${best["$command cat"]}" \
        -v bar=$bar 'BEGIN {
        printf "%s: %.3f s over a file, %.3f s over a pipe: %.2f of the speed (bar: %s); cat alone %.3f s\n",
            command, file / 1e6, pipe / 1e6, file / pipe, bar, cat / 1e6
        exit file < bar * pipe }' || status=1
done <<'end'
code in.ts
receive in.sym
end

mkfifo pipe
cat few.ts >pipe &
few=$(memory "$program" code pipe /dev/null | tail -n 1)
for _ in {1..10}; do cat in.ts; done >pipe &
many=$(memory "$program" code pipe /dev/null | tail -n 1)
printf 'code holds %d kB for 2 MB through a pipe, and %d kB for 2 GB\n' "$few" "$many"
((many <= few + 256)) || status=1
exit $status

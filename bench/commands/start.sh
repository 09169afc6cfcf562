#!/usr/bin/env bash
# What the launcher adds to a start of the program: 200 starts of each without words, which only print the usage line, in turns of 20. The
# least time of a start is said, and that of the processor. The status is 0 where the launcher adds at most 10 ms.

. "$(dirname "${BASH_SOURCE[0]}")/timing.sh" || exit 1
TIMEFORMAT='%R %U %S'
declare -A least=()

# starts NAME COMMAND: 20 starts of it, whose times in microseconds are kept under the name where they are the least.
starts() {
    local turn real user system took used
    read -r real user system < <({ time for turn in {1..20}; do "$2" >"$room/usage" </dev/null; done; } 2>&1)
    took=$((10#${real/./} * 50))
    used=$(((10#${user/./} + 10#${system/./}) * 50))
    ((${least[$1]-took} < took)) || least[$1]=$took
    ((${least[processor_$1]-used} < used)) || least[processor_$1]=$used
}

for ((turn = 0; turn < 10; turn++)); do
    starts launcher "$top/dtx"
    starts program "$program"
done
for name in launcher program; do
    printf '%s: %d us a start, of the processor %d us\n' "$name" "${least[$name]}" "${least[processor_$name]}"
done
added=$((least[launcher] - least[program]))
printf 'the launcher adds %d us (bar: 10000)\n' "$added"
((added <= 10000))

#!/usr/bin/env bash
# Types in the commands of docs/guide.md, in an empty folder, and compares what each prints with what the guide says:
# those of blocks of the kind `console`. A block that needs GNU Radio is of another kind; checks/radio.sh tries the like.
# The last line is `guide: N passed, M failed`, where each command counts once.

set -u
export LC_ALL=C
top=$(cd "$(dirname "${BASH_SOURCE[0]}")/.." && pwd) || exit 1
room=$(mktemp -d) || exit 1
trap 'rm -rf "$room"' EXIT
mkdir "$room/folder"
ln -s "$top/examples" "$room/folder/examples"
cd "$room/folder" || exit 1
PATH=$top:$PATH
"$top/dtx" >"$room/usage" 2>/dev/null </dev/null

passed=0
failed=0
command=
: >"$room/wanted"

# Does the command that was read last, and compares what it prints with the lines that followed it.
judge() {
    [[ $command ]] || return
    bash -c "$command" >"$room/said" 2>&1 </dev/null
    if cmp -s "$room/said" "$room/wanted"; then
        passed=$((passed + 1))
    else
        failed=$((failed + 1))
        printf 'FAILED: %s: printed %s\n' "$command" "$(head -n 3 "$room/said")"
    fi
    command=
    : >"$room/wanted"
}

inside=
while IFS= read -r line; do
    case $line in
        '```console') inside=yes ;;
        '```')
            judge
            inside=
            ;;
        '$ '*)
            [[ $inside ]] || continue
            judge
            command=${line#'$ '}
            ;;
        *) [[ ! $inside ]] || printf '%s\n' "$line" >>"$room/wanted" ;;
    esac
done <"$top/docs/guide.md"
judge
printf 'guide: %d passed, %d failed\n' "$passed" "$failed"
((failed == 0 && passed > 0))

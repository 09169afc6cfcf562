#!/usr/bin/env bash
# Tries wrong programs beside those of the gate: the prover has to refuse each edit of checks/wrong_programs/CRATE, as it
# refuses those of crates/CRATE/must-fail, and for a goal, not for a name that a proof lacks. It is no part of `./test`,
# since each edit costs a check: run it by hand, with names of crates, or none for all. It works on a copy, in which
# `rt ci CRATE..` tries them. What the gate proved on this machine is not proved again.
# The last line is `wrong programs: N passed, M failed`.

set -u
top=$(cd "$(dirname "${BASH_SOURCE[0]}")/.." && pwd) || exit 1
room=$(mktemp -d) || exit 1
trap 'rm -rf "$room"' EXIT
cd "$top" || exit 1

crates=("$@")
if ((${#crates[@]} == 0)); then
    for folder in checks/wrong_programs/*/; do
        crates+=("$(basename "$folder")")
    done
fi

git ls-files -z --cached --others --exclude-standard -- crates crates.txt HANDLES |
    tar --null -T - -cf - | tar -xf - -C "$room"

edits=()
for crate in "${crates[@]}"; do
    rm -rf "$room/crates/$crate/must-fail"
    cp -r "checks/wrong_programs/$crate" "$room/crates/$crate/must-fail" || exit 1
    for edit in "checks/wrong_programs/$crate"/*.edit; do
        edits+=("$crate/$(basename "$edit")")
    done
done

said=$(cd "$room" && rt ci "${crates[@]}" </dev/null)
passed=0
for edit in "${edits[@]}"; do
    line=$(grep -F "must-fail $edit: " <<<"$said")
    if [[ $line == *': refused, as it must be'* && $line != *'only because a proof file names'* ]]; then
        passed=$((passed + 1))
    else
        printf 'wrong programs: %s: %.300s\n' "$edit" "${line:-not tried}"
    fi
done
printf 'wrong programs: %d passed, %d failed\n' "$passed" $((${#edits[@]} - passed))
((passed == ${#edits[@]}))

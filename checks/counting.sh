# Counts what holds, for the checks that are no black box: `. "$top/checks/counting.sh"`. They end with the line of `counts`.

passed=0
failed=0
# Where commands' words go, of which the last lines are shown where one fails. They are shown at once where it is empty.
said=

# holds WHAT COMMAND..: it passes where the command does.
holds() {
    local what=$1
    shift
    if "$@" >"${said:-/dev/stdout}" 2>&1; then
        passed=$((passed + 1))
    else
        failed=$((failed + 1))
        printf 'FAILED: %s%s\n' "$what" "${said:+: $(tail -n 3 "$said")}"
    fi
}

# counts NAME: the last line, with the status of all.
counts() {
    printf '%s: %d passed, %d failed\n' "$1" "$passed" "$failed"
    ((failed == 0))
}

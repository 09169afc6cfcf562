#!/usr/bin/env bash
# piece.sh N: does what dtx is asked for piece N of a work, whose files stand in this folder; pieces.sh says how.
# The status is that of dtx.

read -ra words <"words-$1" || exit 1
# Where a file may grow no further, that is a write fault, and not the end of the program by a signal.
trap '' XFSZ
./dtx "${words[@]}" >"line-$1"
status=$?
echo "$status" >"status-$1"
exit "$status"

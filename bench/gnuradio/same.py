#!/usr/bin/env python3
"""Compares the symbols of `dtx code` with the levels of GNU Radio: same.py SYMBOLS LEVELS."""

import sys

from gnuradio import gr

SEGMENT = 832
# The mode bits in which the profile's field sync differs from that of GNU Radio.
PROFILES_OWN = {709, 711, 713, 715}
# A field has a field sync and then this many data segments.
FIELD = 312


def differing(ours, theirs):
    """The symbols in which a segment differs; a level z is the symbol 2 * z - 7."""
    return {
        place
        for place, (symbol, level) in enumerate(zip(ours, theirs))
        if symbol != (2 * level - 7) % 256
    }


symbols, levels = (open(name, "rb").read() for name in sys.argv[1:3])
segments = len(symbols) // SEGMENT
unlike = []
for number in range(segments):
    place = SEGMENT * number
    found = differing(symbols[place : place + SEGMENT], levels[place : place + SEGMENT])
    is_sync = number % (FIELD + 1) == 0
    if found != (PROFILES_OWN if is_sync else set()):
        unlike.append(number)
syncs = -(-segments // (FIELD + 1))
print(f"GNU Radio {gr.version()}: {segments - syncs} data segments and {syncs} field syncs compared, {len(unlike)} unlike")
sys.exit(1 if unlike or len(levels) < len(symbols) else 0)

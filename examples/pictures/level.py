#!/usr/bin/env python3
"""Draws how the syncs of a capture stood: level.py LOG NAME writes NAME.svg and NAME.png, of a log that `dtx level` wrote.

Over the time of the air: by how many decibels the signal is above the noise, the gain, and the constant in units. A sync that doesn't stand a
whole number of fields behind the one before it has a broken line, and an inverted signal has crosses.
"""

import collections
import math
import sys

from drawing import FIELD, SEGMENT, Missing, figure, finish, first_of

SYMBOL_RATE = 4.5e6 * 684 / 286
DUE = (FIELD + 1) * SEGMENT

# A unit is eight steps of what is levelled, and the data symbols have 21 units of power. The noise is the sum over 515 symbols.
POWER = 21 * 8**2 * 515

Sync = collections.namedtuple("Sync", "place field gain constant noise")


def syncs_of(name):
    """The syncs that a log tells of: gain and constant are hundredths of a step."""
    found = []
    for line in first_of(name, "dtx level").read_text().splitlines():
        word, *numbers = line.split()
        if word != "sync" or len(numbers) != len(Sync._fields):
            raise Missing(f"{name} is no log of `dtx level`: {line}")
        found.append(Sync(*map(int, numbers)))
    if not found:
        raise Missing(f"{name} has no sync")
    return found


def decibels(sync):
    """The signal over the noise; where there is none, over a noise of 1."""
    return 10 * math.log10(POWER / max(sync.noise, 1))


ROWS = (
    ("decibels of the signal\nover the noise", decibels),
    ("gain, in steps a unit", lambda sync: sync.gain / 100),
    # Of a gain that is less than half a hundredth nothing can be said in units.
    ("constant, in units", lambda sync: sync.constant / sync.gain if sync.gain else math.nan),
)


def main(log, name):
    syncs = syncs_of(log)
    times = [sync.place / SYMBOL_RATE for sync in syncs]
    slips = [time for time, sync, before in zip(times[1:], syncs[1:], syncs) if (sync.place - before.place) % DUE]
    drawn, whole = figure(18)
    whole.remove()
    for axes, (label, value) in zip(drawn.subplots(len(ROWS), 1, sharex=True), ROWS):
        axes.plot(times, [value(sync) for sync in syncs], "-", color="0.7", linewidth=0.8)
        for marker, turned in (("o", False), ("x", True)):
            points = [(time, value(sync)) for time, sync in zip(times, syncs) if (sync.gain < 0) == turned]
            if points:
                axes.plot(*zip(*points), marker, color="black", markersize=4, markerfacecolor="white")
        for number, time in enumerate(slips):
            axes.axvline(time, color="0.4", linewidth=0.8, linestyle="--", gid=f"slip-{number}" if axes.get_subplotspec().is_first_row() else None)
        axes.set_ylabel(label)
        axes.grid(color="0.9", linewidth=0.5)
    axes.set_xlabel("seconds of the capture; a broken line where symbols were lost or came twice, crosses where it is inverted")
    finish(drawn, name)


if __name__ == "__main__":
    try:
        if len(sys.argv) != 3:
            raise Missing("level.py LOG NAME")
        main(*sys.argv[1:])
    except Missing as missing:
        sys.exit(f"level.py: {missing}")

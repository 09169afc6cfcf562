#!/usr/bin/env python3
"""Tries the headline on `dtx excite`: from whatever earlier state, an exciter that is given a feed unchanged from a mark on ends with the
feed's own symbols and presets, from its first listing on that counts. It asks nothing of how an exciter works but its anchor.

lockstep.py DTX LIVES    names each life that differs, and ends with the line `lockstep: N passed, M failed`
"""

import collections
import random
import subprocess
import sys
import tempfile

from exciter import anchor, frames, made_feed, part
from reference import FIELD, FRAME, PACKET, TWO_SITES, read, try_each
from splices import coded_segments

# How long the feed takes to each transmitter.
DELAYS = {7: 1000, 9: 2000}


def anchor_of(packets):
    """The anchor behind some packets."""
    a = None
    for i in range(len(packets)):
        a = anchor(packets, i, a)
    return a


def locked_from(earlier, mark):
    """The packet of the feed from which on an exciter is locked that is given it from a mark on behind earlier packets, and why."""
    a = anchor_of(earlier)
    if a is None:
        return mark, "no lock"
    if (len(earlier) - a) % FRAME == 0:
        return mark, "in step"
    return mark + 2 * FRAME, "out of step"


def place_of(k):
    """The place of the data segment of packet k of a feed."""
    return k + k // FIELD + 1


def order_of(feed, g):
    """The fields of the first operations packet of the group at g, or nothing."""
    return next(filter(None, map(read, feed[g : g + 4])), None)


def listing(feed, z, end):
    """The first group from packet z + 52 on, whole up to the end, that has an operations packet; each one here lists all transmitters."""
    return next((k for k in range((z + 55) // 4 * 4, end - 3, 4) if order_of(feed, k)), None)


def preset(feed, g, offset):
    """What the preset of the group at g says behind its segment."""
    fields, j = order_of(feed, g), g % FRAME
    grains = (fields["stamp"] + fields["max_delay"] + offset) * 1539 + place_of(j) * 1_189_760
    return f"{g // FRAME} {j} {grains // 1539 % 10_000_000} {grains % 1539}"


def excited(dtx, folder, address):
    """The symbols and the log of a life by the program."""
    words = [dtx, "excite", "life.ts", str(address), str(DELAYS[address]), "out.sym", "out.log"]
    if subprocess.run(words, cwd=folder, capture_output=True).returncode:
        return b"", ""
    return open(f"{folder}/out.sym", "rb").read(), open(f"{folder}/out.log").read()


def wrongs(feed, segments, k, end, symbols, log, offset):
    """What is wrong with what is sent of the feed from the group at k on, whose segments are these, up to an end."""
    whole = end // 4 * 4
    stretch = b"".join(segments[place_of(k) : place_of(whole - 1) + 1])
    before = (len(symbols) - len(stretch)) // 832
    groups = [g for g in range(k, whole, 4) if order_of(feed, g)]
    lines = [f"preset {before + place_of(g) - place_of(k)} {preset(feed, g, offset)}" for g in groups]
    wrong = [] if symbols.endswith(stretch) else ["the symbols do not end with those of the feed"]
    return wrong + ([] if log.splitlines()[-len(lines) :] == lines else ["the log does not end with the presets of the feed"])


def made_life(chance, feed):
    """Earlier packets, which end in step with their lock or don't, a mark, and up to where the feed is given from there on."""
    earlier = part(chance, feed, chance.random() < 0.5) if chance.random() < 0.6 else []
    if chance.random() < 0.6:
        earlier += frames(chance, feed)
    a = anchor_of(earlier)
    if a is not None and chance.random() < 0.4:
        earlier += [b"\x47" + chance.randbytes(PACKET - 1) for _ in range((a - len(earlier)) % FRAME)]
    mark = chance.choice((0, FRAME, 2 * FRAME))
    return earlier, mark, min(len(feed), mark + chance.choice((120, 700, 1301, 1400, 1500, 1500, 1900)) + chance.randrange(8))


def cases(dtx, lives):
    """Random lives, and what is wrong with what the program makes of them; and what is wrong where one of the three states is missing."""
    chance, met = random.Random(52), collections.Counter()
    feed = made_feed(chance, 3100, 0.02)
    segments = coded_segments(feed)
    with tempfile.TemporaryDirectory() as folder:
        for _ in range(lives):
            earlier, mark, end = made_life(chance, feed)
            z, state = locked_from(earlier, mark)
            k = listing(feed, z, end)
            if k is None:
                continue
            met[state] += 1
            open(f"{folder}/life.ts", "wb").write(b"".join(earlier + feed[mark:end]))
            wrong = []
            for each in TWO_SITES["transmitter"]:
                wrong += wrongs(feed, segments, k, end, *excited(dtx, folder, each["address"]), each["offset"])
            yield f"{len(earlier)} packets, {state}, the feed from {mark} to {end}, listing at {k}", wrong
    for state in ("no lock", "in step", "out of step"):
        if not met[state]:
            yield f"lives with {state}", [f"there is none among {lives}"]


if __name__ == "__main__":
    sys.exit(try_each("lockstep", cases(sys.argv[1], int(sys.argv[2]))))

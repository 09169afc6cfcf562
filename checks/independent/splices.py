#!/usr/bin/env python3
"""Tries `dtx receive` on random lists of segments, cut and spliced, against the written rules and two things that follow from them. Of a
file's first bytes the file's first packets are received. Of two files one behind the other the packets of each are received, where no run
is on at the end of the first.

splices.py DTX LISTS    names each list that differs, and ends with the line `splices: N passed, M failed`
"""

import functools
import random
import sys
import tempfile

from exciter import coded_group, field_sync
from network import differences
from receiver import LEVELS, SEGMENT, looks, received, told
from reference import FIELD, PACKET, coded, try_each

# How long a stretch is: around the segments with which packets come, and around those at which a field sync is due.
LENGTHS = (1, 5, 52, 53, 54, 57, 58, 105, 109, 312, 313, 314, 330, 625, 626, 627)


def coded_segments(packets):
    """The segments of whole groups of packets, as bytes."""
    data = b"".join(coded(packet, k % FIELD) for k, packet in enumerate(packets))
    spread = bytes(data[n - 208 * (n % 52)] if n >= 208 * (n % 52) else 0 for n in range(len(data)))
    states, segments = (0,) * 12, []
    for first in range(0, len(packets), 4):
        if first % FIELD == 0:
            segments.append(field_sync(first // FIELD % 2 == 1, segments[-1][-12:] if segments else [-7] * 12))
        group, states = coded_group(states, first % FIELD, spread[207 * first : 207 * first + 828])
        segments += group
    return [bytes(symbol & 255 for symbol in segment) for segment in segments]


def stretch(chance, coded):
    """Segments in a row from a field sync or from anywhere on, or noise, or field syncs where none is due."""
    kind = chance.random()
    if kind < 0.15:
        return [chance.randbytes(SEGMENT) for _ in range(chance.choice((0, 1, 2, 5)))]
    if kind < 0.25:
        return [coded[0]] * chance.choice((1, 2, 54))
    first = chance.choice((0, 313)) if kind < 0.85 else chance.randrange(len(coded))
    return coded[first : first + chance.choice(LENGTHS)]


def made_list(chance, coded):
    """One or two stretches, of which the last one may end before a segment that is no field sync, and in which a few symbols may be
    wrong."""
    segments = [segment for _ in range(chance.choice((0, 1, 1, 1, 2))) for segment in stretch(chance, coded)]
    if chance.random() < 0.5:
        segments = coded[: chance.choice((313, 626))] + [chance.randbytes(SEGMENT)] + segments[:60]
    symbols = bytearray(b"".join(segments))
    for _ in range(chance.choice((0, 0, 3, 12)) if symbols else 0):
        symbols[chance.randrange(len(symbols))] = chance.randrange(256)
    return bytes(symbols)


def is_on(symbols):
    """Whether a run is on at the end of some segments."""
    segments = [symbols[at : at + SEGMENT].translate(LEVELS) for at in range(0, len(symbols), SEGMENT)]
    k = 0
    while k < len(segments):
        if looks(segments[k]):
            while k < len(segments) and looks(segments[k]):
                k += 1 + FIELD
            if k >= len(segments):
                return True
        k += 1
    return False


def cut_place(chance, symbols):
    """A place in a file: near a segment at which a field sync may be due, or anywhere."""
    segment = chance.choice((0, 1, 53, 57, 58, 312, 313, 314, 366, 367, 626, 627, chance.randrange(1400)))
    return min(len(symbols), SEGMENT * segment + chance.choice((-1, 0, 0, 1, chance.randrange(SEGMENT)))) if segment else 0


@functools.cache
def answer(symbols):
    """The packets and the line of a symbol file."""
    made = received(symbols)
    return told(symbols, made)


def wrongs(dtx, first, second, cut):
    """What differs of two files, of both one behind the other, and of those cut at a place."""
    both = first + second
    found = []
    for name, symbols in (("first", first), ("second", second), ("both", both), ("cut", both[:cut])):
        packets, line = answer(symbols)
        with tempfile.TemporaryDirectory() as folder:
            each = differences([dtx, "receive", "in.sym", "out.ts"], folder, {"in.sym": symbols}, {"out.ts": packets}, line)
        found += [f"{name}: {wrong}" for wrong in each]
    if not answer(both)[0].startswith(answer(both[:cut])[0]):
        found.append("the packets of the cut file are not the first ones")
    if not is_on(first) and answer(both)[0] != answer(first)[0] + answer(second)[0]:
        found.append("the packets of both are not those of each")
    return found


def cases(dtx, lists):
    """Random lists, cut and spliced, and what is wrong with what the program makes of them; and what is wrong where too few of them
    tell something."""
    chance = random.Random(14)
    coded = coded_segments([b"\x47" + chance.randbytes(PACKET - 1) for _ in range(640)])
    off = 0
    for _ in range(lists):
        first, second = made_list(chance, coded), made_list(chance, coded)
        cut = cut_place(chance, first + second)
        off += not is_on(first) and len(answer(first)[0]) > 0 and len(answer(second)[0]) > 0
        yield f"{len(first)} and {len(second)} bytes, cut at {cut}", wrongs(dtx, first, second, cut)
    if off < lists // 5:
        yield "all lists", [f"in only {off} of {lists} has a run ended, and packets come in front and behind"]


if __name__ == "__main__":
    sys.exit(try_each("splices", cases(sys.argv[1], int(sys.argv[2]))))

#!/usr/bin/env python3
"""Tries `dtx acquire` on random captures, against the written rules over the whole list of their symbols.

acquire.py DTX LISTS            names each capture that differs, and ends with the line `acquire: N passed, M failed`
acquire.py acquire SCALE IN OUT writes the segments of the capture IN to OUT, and prints the line of `acquire`
"""

import functools
import random
import sys
import tempfile

from exciter import field_sync
from network import differences
from receiver import SEGMENT
from reference import FIELD, PACKET, answer_file, kinds_missing, try_each
from repeat import MIDDLE
from soft import least_over, places_of, signed, steps
from splices import coded_segments

WINDOW, MOST_UNLIKE, MOST_SCALE = 515, 128, 18
SYNC_SIGNS = [symbol > 0 for symbol in field_sync(False, [0] * 12)[:-12]]


def sliced(symbol, scale):
    """The level of a symbol at so many steps a unit."""
    return max(0, min(7, (symbol + 8 * scale) // (2 * scale)))


@functools.cache
def sliced_byte(scale):
    """For each byte the byte of its slice."""
    return bytes(2 * sliced(signed(byte), scale) - 7 & 255 for byte in range(256))


@functools.cache
def steps_at(scale):
    """What a path may do with each symbol in each state."""
    return [[steps(byte, state, scale) for state in range(4)] for byte in range(256)]


class Signs:
    """The signs of symbols, of which stretches are compared with the signs of a field sync."""

    def __init__(self, symbols):
        self.count = len(symbols)
        plus = bytes(b"01"[0 < byte < 128] for byte in range(256))
        self.bits = int(b"0" + symbols.translate(plus)[::-1], 2)
        self.sync = int("".join("01"[sign] for sign in reversed(SYNC_SIGNS[:WINDOW])), 2)

    def agrees(self, place):
        """Whether a field sync may begin at a place: a whole segment stands there, and few of its signs are other ones."""
        return place + SEGMENT <= self.count and self.unlike(place) <= MOST_UNLIKE

    def unlike(self, place):
        return ((self.bits >> place & (1 << WINDOW) - 1) ^ self.sync).bit_count()

    def next_from(self, place):
        """The least place from there on that agrees, or nothing. What is left of the bits is looked at in parts, since a shift copies them."""
        mask = (1 << WINDOW) - 1
        for start in range(place, self.count - SEGMENT + 1, 4096):
            part = self.bits >> start & (1 << 4096 + WINDOW) - 1
            for at in range(min(4096, self.count - SEGMENT + 1 - start)):
                if ((part >> at & mask) ^ self.sync).bit_count() <= MOST_UNLIKE:
                    return start + at
        return None


def runs_of(symbols):
    """The runs of symbols, each its first place and how many segments it has; a run of which nothing is left is none."""
    signs, runs, begin = Signs(symbols), [], None
    begin = signs.next_from(0)
    while begin is not None:
        sync = begin
        while True:
            due = sync + (FIELD + 1) * SEGMENT
            if due + SEGMENT > len(symbols):
                end, begin_next = begin + (len(symbols) - begin) // SEGMENT * SEGMENT, None
                break
            if signs.agrees(due):
                sync = due
                continue
            begin_next = signs.next_from(sync + 1)
            end = sync if begin_next is not None and begin_next < due else due
            break
        if end > begin:
            runs.append((begin, (end - begin) // SEGMENT))
        begin = begin_next
    return runs


def restored(segment, scale):
    """The field sync that a segment is taken for."""
    unlike = sum((0 < symbol < 128) != sign for symbol, sign in zip(segment[MIDDLE : MIDDLE + 63], SYNC_SIGNS[MIDDLE : MIDDLE + 63]))
    return bytes(symbol & 255 for symbol in field_sync(unlike >= 32, [0] * 12)[:-12]) + segment[-12:].translate(sliced_byte(scale))


def decided(data, scale):
    """The data segments behind one sync, decided, and what their least paths cost."""
    whole, total = len(data) // 4 * 4, 0
    made = [bytearray(b"\5\xfb\xfb\5" + segment[4:].translate(sliced_byte(scale))) for segment in data]
    for coder in range(12):
        places = places_of(coder, whole)
        cost, _, levels = least_over([data[g][at] for g, at in places], steps_at(scale))
        total += cost
        for (g, at), level in zip(places, levels):
            made[g][at] = 2 * level - 7 & 255
    return [bytes(segment) for segment in made], total


def acquired(symbols, scale):
    """The segments of a capture, and the line."""
    made, total, runs = [], 0, runs_of(symbols)
    for begin, count in runs:
        segments = [symbols[begin + SEGMENT * i : begin + SEGMENT * (i + 1)] for i in range(count)]
        for first in range(0, count, FIELD + 1):
            data, cost = decided(segments[first + 1 : first + 1 + FIELD], scale)
            made += [restored(segments[first], scale)] + data
            total += cost
    loose = len(symbols) - SEGMENT * len(made)
    line = f"symbols {len(symbols)} runs {len(runs)} segments {len(made)} cost {total} loose {loose}" if runs else "no sync"
    return b"".join(made), line


# ---- Random captures ----


def noisy(chance, symbols, scale, width):
    """Symbols at a scale, with noise of so many steps, cut off at what a byte holds."""
    sums = (scale * signed(symbol) + round(chance.gauss(0, width)) for symbol in symbols)
    return bytes(max(-128, min(127, each)) & 255 for each in sums)


def capture(chance, coded):
    """A capture and its scale: segments from a sync or from anywhere on, with noise, with symbols in front, put in, or taken out."""
    scale = chance.choice((1, 1, 2, 4, 8, 17, MOST_SCALE))
    first = chance.choice((0, 0, 313, chance.randrange(600)))
    symbols = bytearray(b"".join(coded[first : first + chance.choice((1, 5, 60, 313, 314, 320, 627, 640))]))
    symbols = bytearray(noisy(chance, symbols, scale, scale * chance.choice((0, 0, 0.3, 0.6, 1.5, 4))))
    symbols[:0] = chance.choice((b"", b"", bytes(100), chance.randbytes(999)))
    for _ in range(chance.choice((0, 0, 1, 2))):
        at, count = chance.randrange(len(symbols)), chance.choice((1, 7, 100, 831, 832, 260416))
        if chance.random() < 0.5:
            symbols[at:at] = chance.choice((bytes, chance.randbytes))(min(count, 5000))
        else:
            del symbols[at : at + count]
    return bytes(symbols), scale


def cases(dtx, lists):
    """Random captures, and what is wrong with what the program makes of them; and what is wrong where none of them is one of a kind."""
    chance = random.Random(21)
    coded = coded_segments([b"\x47" + chance.randbytes(PACKET - 1) for _ in range(900)])
    met = {"undamaged": 0, "two runs": 0, "no sync": 0, "a field left out": 0}
    for _ in range(lists):
        symbols, scale = capture(chance, coded)
        made, line = acquired(symbols, scale)
        met["undamaged"] += " cost 0 " in line
        met["two runs"] += len(runs_of(symbols)) > 1
        met["no sync"] += line == "no sync"
        met["a field left out"] += len(symbols) - len(made) >= FIELD * SEGMENT
        with tempfile.TemporaryDirectory() as folder:
            words = [dtx, "acquire", str(scale), "in.sym", "out.sym"]
            wrong = differences(words, folder, {"in.sym": symbols}, {"out.sym": made}, line)
        yield f"{len(symbols)} symbols at scale {scale}", wrong
    yield from kinds_missing(met, lists, "captures")


if __name__ == "__main__":
    if sys.argv[1] == "acquire":
        sys.exit(answer_file(lambda given: acquired(given, int(sys.argv[2])), *sys.argv[3:]))
    sys.exit(try_each("acquire", cases(sys.argv[1], int(sys.argv[2]))))

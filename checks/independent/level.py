#!/usr/bin/env python3
"""Tries `dtx level` on random captures, against the written rules over the whole list of their symbols.

level.py DTX LISTS         names each capture that differs, and ends with the line `level: N passed, M failed`
level.py level IN OUT LOG  writes the capture IN, levelled, to OUT, and the lines of its syncs to LOG, and prints the line of `level`
"""

import random
import statistics
import sys
import tempfile

from acquire import SYNC_SIGNS, WINDOW, Signs
from network import differences
from receiver import SEGMENT
from reference import FIELD, PACKET, kinds_missing, try_each
from repeat import MIDDLE
from soft import signed
from splices import coded_segments

DUE, FEW, MANY = (FIELD + 1) * SEGMENT, 128, 387
PLUS = [i for i in range(WINDOW) if SYNC_SIGNS[i]]
MINUS = [i for i in range(WINDOW) if not SYNC_SIGNS[i]]
P, M = len(PLUS), len(MINUS)


def shown(symbols, place):
    """The gain and the constant that a place shows, 10 and 2 times P * M of them a step."""
    a = sum(signed(symbols[place + i]) for i in PLUS)
    b = sum(signed(symbols[place + i]) for i in MINUS)
    return a * M - b * P, a * M + b * P


class Syncs(Signs):
    """The syncs of a capture."""

    def __init__(self, symbols):
        super().__init__(symbols)
        self.symbols = symbols

    def shows(self, place):
        """Whether a place shows a sync."""
        if place + SEGMENT > self.count:
            return False
        count = self.unlike(place)
        return count <= FEW and shown(self.symbols, place)[0] > 0 or count >= MANY and shown(self.symbols, place)[0] < 0

    def least_from(self, place):
        """The least place from there on that shows one, or nothing."""
        mask = (1 << WINDOW) - 1
        for start in range(place, self.count - SEGMENT + 1, 4096):
            part = self.bits >> start & (1 << 4096 + WINDOW) - 1
            for at in range(min(4096, self.count - SEGMENT + 1 - start)):
                if not FEW < ((part >> at & mask) ^ self.sync).bit_count() < MANY and self.shows(start + at):
                    return start + at
        return None

    def places(self):
        """Where all syncs stand."""
        place = self.least_from(0)
        while place is not None:
            yield place
            if place + DUE + SEGMENT > self.count:
                return
            place = place + DUE if self.shows(place + DUE) else self.least_from(place + SEGMENT)


def levels(gain, constant):
    """What each byte becomes behind a sync of that gain and constant."""
    table = []
    for byte in range(256):
        n, g = 40 * (2 * P * M * signed(byte) - constant), gain
        if g < 0:
            n, g = -n, -g
        table.append(max(-127, min(127, (2 * n + g) // (2 * g))) & 255)
    return bytes(table)


def log_line(place, gain, constant, sync):
    """The line of a sync, whose levelled segment is given."""
    field = 1 + (sum((0 < sync[MIDDLE + i] < 128) != SYNC_SIGNS[MIDDLE + i] for i in range(63)) >= 32)
    noise = sum((signed(sync[i]) - (40 if SYNC_SIGNS[i] else -40)) ** 2 for i in range(WINDOW))
    return f"sync {place} {field} {(20 * gain + P * M) // (2 * P * M)} {(100 * constant + P * M) // (2 * P * M)} {noise}\n"


def levelled(symbols):
    """A capture levelled, the lines of its syncs, and the line."""
    places = list(Syncs(symbols).places())
    if not places:
        return b"", b"", "no sync"
    out, log = [bytes(places[0])], []
    for place, end in zip(places, places[1:] + [len(symbols)]):
        gain, constant = shown(symbols, place)
        made = symbols[place:end].translate(levels(gain, constant))
        out.append(made)
        log.append(log_line(place, gain, constant, made[:SEGMENT]))
    slips = sum((after - before) % DUE != 0 for before, after in zip(places, places[1:]))
    return b"".join(out), "".join(log).encode(), f"symbols {len(symbols)} syncs {len(places)} slips {slips}"


# ---- Random captures ----


# What noise of deviation 1 is at each of 256 like parts of its distribution.
NOISE = [statistics.NormalDist().inv_cdf((2 * part + 1) / 512) for part in range(256)]


def received(chance, symbols, gain, constant, width):
    """Symbols at that gain and with that constant and noise of so many steps, cut off at what a byte holds."""
    made = {
        byte: bytes(max(-128, min(127, gain * signed(byte) + constant + round(width * part))) & 255 for part in NOISE) for byte in set(symbols)
    }
    return bytes(made[byte][part] for byte, part in zip(symbols, chance.randbytes(len(symbols))))


def with_losses(chance, symbols):
    """Symbols of which some are taken out, doubled or hidden."""
    symbols = bytearray(symbols)
    for _ in range(chance.choice((0, 0, 1, 2))):
        at, count = chance.randrange(len(symbols)), chance.choice((1, 7, 300, 831, 832, 260416))
        kind = chance.randrange(4)
        if kind == 0:
            del symbols[at : at + count]
        elif kind == 1:
            symbols[at:at] = symbols[at : at + count]
        elif kind == 2:
            symbols[at:at] = chance.randbytes(min(count, 5000))
        else:
            at -= at % DUE
            symbols[at : at + SEGMENT] = bytes(len(symbols[at : at + SEGMENT]))
    return bytes(symbols)


def capture(chance, coded):
    """A capture: segments from a sync or from anywhere on, at a gain and with a constant that may change on the way, with noise, and with
    symbols in front, put in, taken out or hidden."""
    first = chance.choice((0, 0, 313, chance.randrange(600)))
    sent = b"".join(coded[first : first + chance.choice((1, 5, 60, 313, 314, 320, 627, 640))])
    cut = chance.choice((len(sent), chance.randrange(len(sent) + 1)))
    parts = []
    for part in (sent[:cut], sent[cut:]):
        gain = chance.choice((1, 2, 8, 18, chance.randint(1, 18))) * chance.choice((1, 1, -1))
        constant = chance.choice((0, 0, chance.randint(-5 * abs(gain), 5 * abs(gain))))
        parts.append(received(chance, part, gain, constant, abs(gain) * chance.choice((0, 0, 0.3, 0.6, 1.5, 4))))
    front = chance.choice((b"", b"", bytes(100), chance.randbytes(999)))
    return with_losses(chance, front + b"".join(parts))


def cases(dtx, lists):
    """Random captures, and what is wrong with what the program makes of them; and what is wrong where none of them is one of a kind."""
    chance = random.Random(24)
    coded = coded_segments([b"\x47" + chance.randbytes(PACKET - 1) for _ in range(900)])
    met = {"turned": 0, "two syncs": 0, "slips": 0, "no sync": 0}
    for _ in range(lists):
        symbols = capture(chance, coded)
        made, log, line = levelled(symbols)
        met["turned"] += b" -" in log
        met["two syncs"] += log.count(b"\n") > 1
        met["slips"] += line != "no sync" and not line.endswith(" slips 0")
        met["no sync"] += line == "no sync"
        with tempfile.TemporaryDirectory() as folder:
            words = [dtx, "level", "in.sym", "out.sym", "out.log"]
            wrong = differences(words, folder, {"in.sym": symbols}, {"out.sym": made, "out.log": log}, line)
        yield f"{len(symbols)} symbols", wrong
    yield from kinds_missing(met, lists, "captures")


def answer(source, target, log):
    """Levels a file, prints the line, and gives the status that follows it."""
    with open(source, "rb") as file:
        made, lines, line = levelled(file.read())
    for name, content in ((target, made), (log, lines)):
        with open(name, "wb") as file:
            file.write(content)
    print(line)
    return 10 if line == "no sync" else 0


if __name__ == "__main__":
    if sys.argv[1] == "level":
        sys.exit(answer(*sys.argv[2:]))
    sys.exit(try_each("level", cases(sys.argv[1], int(sys.argv[2]))))

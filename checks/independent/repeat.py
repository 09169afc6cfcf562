#!/usr/bin/env python3
"""Tries `dtx repeat` on random symbol files, cut, spliced and damaged, against the written rules over whole lists. Each run is received, and
its marks are restored from the turns of first and second fields. An exciter that was given nothing before is given its packets.

repeat.py DTX LISTS    names each list that differs, and ends with the line `repeat: N passed, M failed`
"""

import random
import sys
import tempfile

from exciter import DELAYS, PN63, lived, made_feed
from network import differences
from receiver import LEVELS, SEGMENT, packets_of_run, places_of_runs, segments_of
from reference import FIELD, kinds_missing, try_each
from splices import coded_segments

# Where the middle one of three like sequences of a field sync stands; it has other signs in a second field.
MIDDLE = 4 + 511 + 63


def is_second(sync):
    """Whether a field sync is that of a second field: at least 32 of the 63 symbols have other signs than in a first one."""
    signs = [level >= 4 for level in sync[MIDDLE : MIDDLE + 63]]
    return sum(sign != bool(bit) for sign, bit in zip(signs, PN63)) >= 32


def marked(packets, begins_second):
    """The packets of a run with byte 0 of a feed: a mark at the begin of each first field."""
    marks = (k % FIELD == 0 and (k // FIELD + begins_second) % 2 == 0 for k in range(len(packets)))
    return [bytes([0xB8 if mark else 0x47]) + packet[1:] for packet, mark in zip(packets, marks)]


def repeated(symbols, address, delay):
    """The symbols and the log of a repeater, and its line; nothing in place of them where there is no run."""
    segments = segments_of(symbols.translate(LEVELS))
    runs = places_of_runs(segments)
    if not runs:
        return b"", "", "no sync"
    sent, log, received = bytearray(), [], 0
    for number, (sync, data) in enumerate(runs):
        if number:
            log.append(f"restart {len(sent) // SEGMENT}")
        packets = [packet for packet, _, _ in packets_of_run(segments[sync], [segments[k] for k in data])]
        made, lines = lived(tuple(marked(packets, is_second(segments[sync]))), address, delay, len(sent) // SEGMENT)
        received += len(packets)
        sent += made
        log += lines
    of_kind = {kind: sum(line.startswith(kind) for line in log) for kind in ("preset", "mute")}
    told = f"sent {len(sent) // SEGMENT} presets {of_kind['preset']} mutes {of_kind['mute']}"
    line = f"segments {len(segments)} runs {len(runs)} packets {received} {told} loose {len(symbols) % SEGMENT}"
    return bytes(sent), "".join(each + "\n" for each in log), line


def damaged(chance, symbols):
    """Symbols with wrong ones: few in a row, many in a row, or in the sequence that tells the fields apart."""
    symbols = bytearray(symbols)
    for _ in range(chance.choice((0, 1, 2))):
        first, count = chance.randrange(len(symbols)), chance.choice((1, 12, 1664, 3328, 5000))
        symbols[first : first + count] = chance.randbytes(len(symbols[first : first + count]))
    if chance.random() < 0.3:
        first = chance.choice((0, 313)) * SEGMENT + MIDDLE
        for at in chance.sample(range(63), chance.choice((31, 32))) if first + 63 <= len(symbols) else ():
            symbols[first + at] = -(symbols[first + at]) & 255
    return bytes(symbols)


def made_symbols(chance, coded):
    """One or two stretches of the segments of a feed, from a field sync or from anywhere on, between which a run ends or doesn't."""
    symbols = b""
    for _ in range(chance.choice((1, 1, 2))):
        first = chance.choice((0, 0, 313, 626, chance.randrange(len(coded) - 700)))
        symbols += b"".join(coded[first : first + chance.choice((58, 120, 372, 430, 700))])
        symbols += chance.randbytes(SEGMENT * chance.choice((0, 0, 1)))
    return damaged(chance, symbols)[: -chance.choice((1, 400)) if chance.random() < 0.3 else None]


def cases(dtx, lists):
    """Random symbol files, and what is wrong with what the program makes of them; and what is wrong where none of them is one of a kind."""
    chance = random.Random(20)
    coded = coded_segments(made_feed(chance, 1400, 0.03))
    met = {"sent": 0, "restart": 0, "begins in a second field": 0, "two marks": 0}
    for _ in range(lists):
        symbols = made_symbols(chance, coded)
        address, delay = chance.choice((7, 7, 9, 8)), chance.choice(DELAYS[:2] * 3 + DELAYS)
        sent, log, line = repeated(symbols, address, delay)
        met["sent"] += len(sent) > 0
        met["restart"] += "restart" in log
        runs = places_of_runs(segments_of(symbols.translate(LEVELS)))
        met["begins in a second field"] += any(is_second(symbols[SEGMENT * k :].translate(LEVELS)) for k, _ in runs)
        met["two marks"] += any(len(data) > 624 + 52 for _, data in runs)
        with tempfile.TemporaryDirectory() as folder:
            words = [dtx, "repeat", "in.sym", str(address), str(delay), "out.sym", "out.log"]
            wrong = differences(words, folder, {"in.sym": symbols}, {"out.sym": sent, "out.log": log.encode()}, line)
        yield f"{len(symbols)} bytes, address {address}, delay {delay}", wrong
    yield from kinds_missing(met, lists)


if __name__ == "__main__":
    sys.exit(try_each("repeat", cases(sys.argv[1], int(sys.argv[2]))))

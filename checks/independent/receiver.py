#!/usr/bin/env python3
"""Receives symbols after the written rules, over whole lists; it shares nothing with dtx.

receiver.py IN OUT    writes the packets of the symbols IN to OUT, and prints the line of `receive`
"""

import sys

from exciter import field_sync
from reference import FIELD, answer_file, corrected, whitened

SEGMENT = 832


def sliced(symbol):
    """The level of a symbol, which is a byte in two's complement."""
    symbol = symbol - 256 if symbol > 127 else symbol
    return 0 if symbol < -8 else 7 if symbol > 7 else (symbol + 8) // 2


LEVELS = bytes(sliced(symbol) for symbol in range(256))
SYNC = bytes(sliced(symbol & 255) for symbol in field_sync(False, [0] * 12)[:515])


def looks(segment):
    """Whether a segment of levels looks like a field sync."""
    return sum(level != other for level, other in zip(segment, SYNC)) <= 32


def places_of_runs(segments):
    """The runs: for each the number of its first field sync and those of its data segments. They are searched one behind the other."""
    runs, k = [], 0
    while k < len(segments):
        if not looks(segments[k]):
            k += 1
            continue
        sync, data = k, []
        while k < len(segments) and looks(segments[k]):
            data += range(k + 1, min(k + 1 + FIELD, len(segments)))
            k += 1 + FIELD
        runs.append((sync, data))
        k += 1
    return runs


def runs_of(segments):
    """The runs: for each its first field sync and its data segments."""
    return [(segments[sync], [segments[k] for k in data]) for sync, data in places_of_runs(segments)]


def segments_of(symbols):
    """The whole segments of symbols."""
    return [symbols[at : at + SEGMENT] for at in range(0, len(symbols) - SEGMENT + 1, SEGMENT)]


def pairs_of(sync, data):
    """Where the pairs of a run's whole groups stand: for each the place of its byte, how far it is shifted there, its symbol, and the one
    of its coder before it."""
    former = {(q + 8) % 12: sync[820 + q] for q in range(12)}
    for first in range(0, len(data) - 3, 4):
        s = first % FIELD
        for turn in range(276):
            i, h = turn // 69, turn // 4
            for p in range(12):
                coder = (p + 4 * ((s + i) % 3)) % 12
                symbol = data[first + i][4 + 12 * (turn % 69) + p]
                place = 12 * h + (coder - 4 * ((s + 4 * h // 69) % 3)) % 12
                yield 207 * first + place, 6 - 2 * (turn % 4), symbol, former[coder]
                former[coder] = symbol


def bytes_of(sync, data):
    """The bytes of a run's whole groups, of levels."""
    received = bytearray(207 * (len(data) // 4 * 4))
    for place, shift, level, former in pairs_of(sync, data):
        received[place] |= (2 * (level >> 2 ^ former >> 2) + (level >> 1 & 1)) << shift
    return received


def packet_of(word, codeword, place):
    """The packet of a word at a place of its field, where that is its correction, or nothing; how many bytes were put right, and whether it
    has one."""
    data = whitened((codeword or word)[:187], place)
    if codeword is None:
        return bytes([0x47, data[0] | 0x80]) + data[1:], 0, False
    return b"\x47" + data, sum(a != b for a, b in zip(codeword, word)), True


def words_of(received):
    """The words that the bytes of a run hold whole, each by its place in the run and the places of its bytes."""
    for k in range(len(received) // 207):
        places = [m + 208 * (m % 52) for m in range(207 * k, 207 * k + 207)]
        if max(places) < len(received):
            yield k, places


def packets_of_run(sync, data):
    """What is received of a run: each packet whose bytes are all there."""
    y = bytes_of(sync, data)
    words = ((k, bytes(y[place] for place in places)) for k, places in words_of(y))
    return [packet_of(word, corrected(word), k % FIELD) for k, word in words]


def received(symbols):
    """The packets of symbols one behind the other, and how many runs, packets, bytes put right and packets flagged there are. Without
    a run there is nothing."""
    runs = runs_of(segments_of(symbols.translate(LEVELS)))
    if not runs:
        return None
    return given_of(len(runs), [each for run in runs for each in packets_of_run(*run)])


def given_of(runs, given):
    """The packets of so many runs one behind the other, and the numbers of the line."""
    numbers = runs, len(given), sum(fixed for _, fixed, _ in given), sum(not good for _, _, good in given)
    return b"".join(packet for packet, _, _ in given), numbers


def line_of(symbols, made):
    """The line of what was made of symbols."""
    if made is None:
        return "no sync"
    runs, packets, fixed, flagged = made[1]
    whole, loose = divmod(len(symbols), SEGMENT)
    return f"segments {whole} runs {runs} packets {packets} fixed {fixed} flagged {flagged} loose {loose}"


def told(symbols, made):
    """The bytes that are written of what was made of symbols, and the line."""
    return made[0] if made else b"", line_of(symbols, made)


if __name__ == "__main__":
    sys.exit(answer_file(lambda given: told(given, received(given)), *sys.argv[1:]))

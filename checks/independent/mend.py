#!/usr/bin/env python3
"""Tries `dtx mend` on random lists of segments in which symbols are missing and others wrong, against the written rules over whole lists. A
symbol of -128 is missing, and the bytes that hang on it are marked. A word is put right where twice its wrong bytes and its marked ones are
at most twenty.

mend.py DTX LISTS    names each list that differs, and ends with the line `mend: N passed, M failed`
mend.py mend IN OUT  writes the packets of the symbols IN to OUT, and prints the line of `mend`
"""

import random
import sys
import tempfile

from network import differences
from receiver import LEVELS, SEGMENT, bytes_of, given_of, packet_of, pairs_of, places_of_runs, received, segments_of, told, words_of
from reference import FIELD, LOGS, PACKET, PARITY, POWERS, answer_file, is_codeword, kinds_missing, locator, parity_bytes, product_of
from reference import try_each, value
from splices import coded_segments, cut_place, made_list

MISSING = 128

# ---- Words ----


def solved(rows):
    """The one solution of linear equations, each of its factors and its right side; nothing where there is none or are several."""
    rows, count = [list(row) for row in rows], len(rows[0]) - 1
    for at in range(count):
        pivot = next((row for row in rows[at:] if row[at]), None)
        if pivot is None:
            return None
        rows.remove(pivot)
        inverse = POWERS[(255 - LOGS[pivot[at]]) % 255]
        pivot = [product_of(inverse, each) for each in pivot]
        rows = [[a ^ product_of(row[at], b) for a, b in zip(row, pivot)] for row in rows]
        rows.insert(at, pivot)
    return None if any(row[-1] for row in rows[count:]) else [row[-1] for row in rows[:count]]


def places_of_wrong(word, marks, syndromes):
    """The unmarked places at which a word that has a mending is wrong: the syndromes, from which the marked places are cancelled, have a
    recurrence whose zeros they are."""
    sums = list(syndromes)
    for place in marks:
        power = POWERS[(len(word) - 1 - place) % 255]
        sums = [after ^ product_of(power, before) for before, after in zip(sums, sums[1:])]
    recurrence, _ = locator(sums)
    return [place for place in range(len(word)) if place not in marks and value(recurrence[::-1], place + 1 - len(word)) == 0]


def mending(word, marks):
    """The codeword that differs from a word in e unmarked places, of which twice as many and the marked ones are at most twenty, or nothing.
    Two such codewords would be fewer than 21 places apart, so there is at most one, and what is found is tested."""
    if len(marks) > PARITY:
        return None
    if is_codeword(word):
        return word
    syndromes = [value(word, i) for i in range(PARITY)]
    wrong = places_of_wrong(word, marks, syndromes)
    if 2 * len(wrong) + len(marks) > PARITY:
        return None
    places = sorted(marks | set(wrong))
    powers = [len(word) - 1 - place for place in places]
    errors = solved([[POWERS[i * power % 255] for power in powers] + [syndromes[i]] for i in range(PARITY)]) if places else None
    if errors is None:
        return None
    mended = bytearray(word)
    for place, error in zip(places, errors):
        mended[place] ^= error
    return bytes(mended)


# ---- Segments ----


def marks_of(sync, data):
    """Which bytes of a run's whole groups are marked, of symbols as they came."""
    marks = bytearray(207 * (len(data) // 4 * 4))
    for place, _, symbol, former in pairs_of(sync, data):
        marks[place] |= MISSING in (symbol, former)
    return marks


def packets_of_run(symbols, levels):
    """What is received of a run, of its symbols as they came and as levels."""
    y, marked, packets = bytes_of(*levels), marks_of(*symbols), []
    for k, places in words_of(y):
        word = bytes(y[place] for place in places)
        codeword = mending(word, {at for at, place in enumerate(places) if marked[place]})
        packets.append(packet_of(word, codeword, k % FIELD))
    return packets


def mended(symbols):
    """The packets of symbols and the numbers of the line, or nothing where there is no run."""
    came, levels = segments_of(symbols), segments_of(symbols.translate(LEVELS))
    runs = places_of_runs(levels)
    if not runs:
        return None
    parts = [[(each[sync], [each[k] for k in data]) for each in (came, levels)] for sync, data in runs]
    return given_of(len(runs), [packet for part in parts for packet in packets_of_run(*part)])


# ---- Random words and symbols ----


def word_cases(chance):
    """For all numbers of wrong and of marked bytes up to one over what can be put right: whether a codeword comes back."""
    for e in range(12):
        for f in range(24 - 2 * e):
            data = chance.randbytes(187)
            codeword = data + parity_bytes(data)
            places = chance.sample(range(207), e + f)
            word = bytearray(codeword)
            for place in places[:e]:
                word[place] ^= chance.randrange(1, 256)
            for place in places[e:]:
                word[place] = chance.randrange(256)
            found = mending(bytes(word), set(places[e:]))
            is_right = found == codeword if 2 * e + f <= PARITY else found != codeword
            yield f"{e} wrong and {f} marked bytes", [] if is_right else ["another answer than it must be"]


def with_outages(chance, symbols):
    """Symbols of which some stretches are missing, single ones are missing, and some are wrong."""
    symbols = bytearray(symbols)
    if not symbols:
        return b""
    for _ in range(chance.choice((0, 1, 1, 2))):
        first, count = chance.randrange(len(symbols)), chance.choice((1, 12, 300, SEGMENT, 4 * SEGMENT, 5 * SEGMENT))
        if chance.random() < 0.5:
            first -= first % SEGMENT
        symbols[first : first + count] = bytes([MISSING]) * len(symbols[first : first + count])
    for kind in (MISSING, None):
        for _ in range(chance.choice((0, 3, 40, len(symbols) // 600))):
            symbols[chance.randrange(len(symbols))] = chance.randrange(256) if kind is None else kind
    return bytes(symbols)


def syncs_missing(chance, coded):
    """Segments whose field syncs lack symbols, of which only those of the first one may mark a byte."""
    made = [bytearray(segment) for segment in coded[: chance.choice((58, 62, 375))]]
    for k in range(0, len(made), FIELD + 1):
        for at in chance.sample(range(815, SEGMENT), 4):
            made[k][at] = MISSING
    return b"".join(made)


def cases(dtx, lists):
    """Random words and lists, and what is wrong with what the program makes of them; and what is wrong where none of them is one of a
    kind."""
    chance = random.Random(18)
    yield from word_cases(chance)
    coded = coded_segments([b"\x47" + chance.randbytes(PACKET - 1) for _ in range(640)])
    met = {"mended beyond receiving": 0, "flagged": 0, "nothing missing": 0, "no sync": 0}
    for number in range(lists):
        whole = syncs_missing(chance, coded) if number % 5 == 0 else made_list(chance, coded)[: 400 * SEGMENT]
        symbols = whole if chance.random() < 0.2 else with_outages(chance, whole)
        symbols = symbols[: cut_place(chance, symbols) if chance.random() < 0.2 else None]
        made, plain = mended(symbols), received(symbols)
        met["no sync"] += made is None
        if made and plain:
            met["mended beyond receiving"] += made[1][3] < plain[1][3]
            met["flagged"] += made[1][3] > 0
            met["nothing missing"] += MISSING not in symbols and len(made[0]) > 0
        with tempfile.TemporaryDirectory() as folder:
            owed, line = told(symbols, made)
            wrong = differences([dtx, "mend", "in.sym", "out.ts"], folder, {"in.sym": symbols}, {"out.ts": owed}, line)
        if MISSING not in symbols and made != plain:
            wrong.append("without a missing symbol it isn't what is received")
        yield f"{len(symbols)} bytes", wrong
    yield from kinds_missing(met, lists)


if __name__ == "__main__":
    if sys.argv[1] == "mend":
        sys.exit(answer_file(lambda given: told(given, mended(given)), *sys.argv[2:]))
    sys.exit(try_each("mend", cases(sys.argv[1], int(sys.argv[2]))))

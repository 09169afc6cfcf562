#!/usr/bin/env python3
"""Tries `dtx refine` on random captures, against the written rules over the whole list of their symbols. Least paths under pins come from
a table, which is held against all paths of short lists.

refine.py DTX LISTS                    names each capture that differs, and ends with the line `refine: N passed, M failed`
refine.py refine SCALE ROUNDS IN OUT   writes the segments of the capture IN after so many rounds to OUT, and prints the line of `refine`
"""

import functools
import random
import sys
import tempfile

from acquire import MOST_SCALE, acquired, noisy, runs_of
from network import differences
from receiver import LEVELS, SEGMENT, bytes_of, words_of
from reference import FIELD, PACKET, answer_file, corrected, kinds_missing, try_each
from soft import behind, least_of_all, made_symbols, places_of, square
from splices import coded_segments

STATES = range(8)


def pair_of(former, level):
    """The pair that a coder was given at a level, where its level before had that Z2: its higher and its lower bit."""
    return 2 * (level >> 2 ^ former) + (level >> 1 & 1)


# ---- All paths ----


def agrees(levels, pins):
    """Whether a path tells the pair of each pin at its step, and at step 0 the pair's lower bit."""
    former = [0] + [level >> 2 for level in levels]
    told = [pair_of(before, level) for before, level in zip(former, levels)]
    return all((told[step] ^ pair) & (3 if step else 1) == 0 for step, pair in pins.items())


# ---- The table ----


@functools.cache
def moves(pair, is_first):
    """What a path may do in each state 4 * Z2 + 2 * q1 + q0, under a pin or under none: the levels in their order, each with the state
    behind it."""
    asked = 0 if pair is None else 1 if is_first else 3
    return [
        [
            (level, (level & 4) + behind(state & 3, level))
            for level in range(8)
            if level & 1 == state >> 1 & 1 and (pair_of(state >> 2, level) ^ (pair or 0)) & asked == 0
        ]
        for state in STATES
    ]


@functools.cache
def squares(scale):
    """For each byte the square of how far it is from each level."""
    return [[square(byte, level, scale) for level in range(8)] for byte in range(256)]


def free_costs(far, behind_it):
    """What the least paths cost from before a step that has no pin. The former Z2 doesn't matter there, and of both Z2 the cheaper one is taken."""
    half = []
    for state in range(4):
        low, to, other = state >> 1, behind(state, 0), behind(state, 2)
        half.append(
            min(
                far[low] + behind_it[to],
                far[low + 2] + behind_it[other],
                far[low + 4] + behind_it[to + 4],
                far[low + 6] + behind_it[other + 4],
            )
        )
    return half + half


def least_under(symbols, pins, scale):
    """The cost, the start and the levels of the least path under pins, by a table that is filled from the end: for each symbol and state,
    what the least path costs from there on."""
    tell, costs = squares(scale), [0] * 8
    table = [costs]
    for step in range(len(symbols) - 1, -1, -1):
        far, pair = tell[symbols[step]], pins.get(step)
        if pair is None:
            costs = free_costs(far, costs)
        else:
            costs = [min(far[level] + costs[to] for level, to in each) for each in moves(pair, step == 0)]
        table.append(costs)
    table.reverse()
    cost, start = min((cost, state) for state, cost in enumerate(costs[:4]))
    state, levels = start, []
    for step, symbol in enumerate(symbols):
        far, left = tell[symbol], table[step + 1]
        kept = moves(pins.get(step), step == 0)[state]
        level, state = next((level, to) for level, to in kept if far[level] + left[to] == table[step][state])
        levels.append(level)
    return cost, start, tuple(levels)


# ---- Rounds ----


@functools.cache
def correction(word):
    return corrected(word)


def known_words(segments):
    """The corrections of the words of decided segments that have one, each by its number, and with the places of its bytes in the run. All
    segments are one run, whose field syncs are those whose number 313 divides."""
    if not segments:
        return []
    levels = [segment.translate(LEVELS) for segment in segments]
    received = bytes_of(levels[0], [each for i, each in enumerate(levels) if i % (FIELD + 1)])
    words = ((k, places, correction(bytes(received[place] for place in places))) for k, places in words_of(received))
    return [(k, places, codeword) for k, places, codeword in words if codeword is not None]


def pins_of(coder, first, count, known):
    """The pins of a coder in so many segments, a whole number of groups, of which the first one is that data segment of the run."""
    pins = {}
    for group in range(count // 4):
        s = (first + 4 * group) % FIELD
        for turn in range(276):
            h = turn // 4
            place = 207 * (first + 4 * group) + 12 * h + (coder - 4 * ((s + 4 * h // 69) % 3)) % 12
            if place in known:
                pins[276 * group + turn] = known[place] >> 6 - 2 * (turn % 4) & 3
    return pins


@functools.cache
def decided_coder(symbols, pins, scale):
    cost, _, levels = least_under(symbols, dict(pins), scale)
    return cost, levels


def one_round(given, segments, scale):
    """The segments of the next round, the costs of its least paths, and how many words were known. The given segments are those of the
    capture, the others those that were decided of them before."""
    words = known_words(segments)
    known = {place: byte for _, places, codeword in words for place, byte in zip(places, codeword)}
    made, costs = [bytearray(segment) for segment in segments], []
    for sync in range(0, len(segments), FIELD + 1):
        whole = (min(len(segments) - sync - 1, FIELD)) // 4 * 4
        first = sync // (FIELD + 1) * FIELD
        for coder in range(12):
            pins, places = pins_of(coder, first, whole, known), places_of(coder, whole)
            symbols = bytes(given[sync + 1 + g][at] for g, at in places)
            cost, levels = decided_coder(symbols, tuple(pins.items()), scale)
            costs.append(cost)
            for (g, at), level in zip(places, levels):
                made[sync + 1 + g][at] = 2 * level - 7 & 255
    return [bytes(segment) for segment in made], costs, len(words)


def cut(symbols):
    """The whole segments of symbols."""
    return [symbols[at : at + SEGMENT] for at in range(0, len(symbols) - SEGMENT + 1, SEGMENT)]


def refined(symbols, scale, rounds):
    """The segments of a capture after so many rounds, and the line."""
    made, line = acquired(symbols, scale)
    if line == "no sync":
        return made, line
    given = [segment for begin, count in runs_of(symbols) for segment in cut(symbols[begin : begin + SEGMENT * count])]
    segments, (head, tail) = cut(made), line.split(" cost ")
    for _ in range(rounds):
        before = segments
        segments, costs, known = one_round(given, before, scale)
    moved = sum(a != b for one, other in zip(before, segments) for a, b in zip(one, other))
    return b"".join(segments), f"{head} cost {sum(costs)} known {known} moved {moved} {tail.split(' ', 1)[1]}"


# ---- Random captures ----


def short_cases(chance, lists):
    """Short lists with random pins, and whether the table finds what is the least of all paths."""
    for number in range(lists):
        symbols = made_symbols(chance, 6 if number % 50 == 1 else number % 6)
        scale = chance.choice((1, 2, 8, MOST_SCALE))
        pins = {step: chance.randrange(4) for step in range(len(symbols)) if chance.random() < 0.4}
        by_table = least_under(symbols, pins, scale)
        by_all = least_of_all(symbols, scale, lambda levels: agrees(levels, pins))
        yield f"the symbols {list(symbols)} under {pins}", [] if by_table == by_all else [f"{by_table} by the table, not {by_all}"]


def capture(chance, coded):
    """A capture and its scale: segments from a sync or from anywhere on, most of them as many as words need, with noise around the
    threshold. A sync may be hidden. There may be symbols in front, put in, or taken out."""
    scale = chance.choice((1, 2, 4, 8, 8, 17, MOST_SCALE))
    first = chance.choice((0, 0, 313, chance.randrange(600)))
    symbols = b"".join(coded[first : first + chance.choice((1, 53, 54, 60, 119, 320, 372, 640))])
    decibels = chance.triangular(12.5, 20, 13.5)
    symbols = bytearray(noisy(chance, symbols, scale, scale * (21 / 10 ** (decibels / 10)) ** 0.5))
    if chance.random() < 0.2:
        sync = -first % (FIELD + 1) * SEGMENT
        symbols[sync : sync + 515] = bytes(len(symbols[sync : sync + 515]))
    symbols[:0] = chance.choice((b"", b"", bytes(100), chance.randbytes(999)))
    for _ in range(chance.choice((0, 0, 0, 1, 2))):
        at, count = chance.randrange(len(symbols)), chance.choice((1, 7, 100, 831, 832, 5000))
        if chance.random() < 0.5:
            symbols[at:at] = chance.choice((bytes, chance.randbytes))(count)
        else:
            del symbols[at : at + count]
    return bytes(symbols), scale


def cases(dtx, lists):
    """Random captures, and what is wrong with what the program makes of them; and what is wrong where none of them is one of a kind."""
    chance = random.Random(25)
    yield from short_cases(chance, 10 * lists)
    coded = coded_segments([b"\x47" + chance.randbytes(PACKET - 1) for _ in range(900)])
    met = {"moved": 0, "known": 0, "two runs": 0, "no sync": 0}
    for _ in range(lists):
        symbols, scale = capture(chance, coded)
        rounds = chance.choice((1, 1, 2, 3))
        made, line = refined(symbols, scale, rounds)
        met["moved"] += line != "no sync" and " moved 0 " not in line
        met["known"] += line != "no sync" and " known 0 " not in line
        met["two runs"] += len(runs_of(symbols)) > 1
        met["no sync"] += line == "no sync"
        with tempfile.TemporaryDirectory() as folder:
            words = [dtx, "refine", str(scale), str(rounds), "in.sym", "out.sym"]
            wrong = differences(words, folder, {"in.sym": symbols}, {"out.sym": made}, line)
        yield f"{len(symbols)} symbols at scale {scale}, {rounds} rounds", wrong
    yield from kinds_missing(met, lists, "captures")


if __name__ == "__main__":
    if sys.argv[1] == "refine":
        sys.exit(answer_file(lambda given: refined(given, int(sys.argv[2]), int(sys.argv[3])), *sys.argv[4:]))
    sys.exit(try_each("refine", cases(sys.argv[1], int(sys.argv[2]))))

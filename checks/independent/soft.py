#!/usr/bin/env python3
"""Tries `dtx soft` on random lists of segments with noise, cut and spliced, against the written rules over whole lists: in each field the
symbols of each coder become those of their least path. Least paths come from a table, which is held against all paths of short lists.

soft.py DTX LISTS    names each list that differs, and ends with the line `soft: N passed, M failed`
soft.py soft IN OUT  writes the symbols of the least paths to OUT, and prints the line of `soft`
"""

import itertools
import random
import sys
import tempfile

from network import differences
from receiver import LEVELS, SEGMENT, looks, runs_of
from reference import FIELD, PACKET, answer_file, kinds_missing, try_each
from splices import coded_segments, cut_place, made_list

STATES = range(4)


def signed(byte):
    return byte - 256 if byte > 127 else byte


def square(byte, level, scale=1):
    """The square of how far a symbol is from that of a level, at so many steps a unit."""
    return (signed(byte) - scale * (2 * level - 7)) ** 2


def behind(state, level):
    """The state 2 * q1 + q0 behind a level."""
    q1, q0 = state >> 1, state & 1
    return 2 * ((level >> 1 & 1) ^ q0) + q1


# ---- All paths ----


def cost_of(symbols, path, scale=1):
    return sum(square(symbol, level, scale) for symbol, level in zip(symbols, path))


def is_path(state, levels):
    """Whether each level's lowest bit is the q1 of the state before it."""
    for level in levels:
        if level & 1 != state >> 1:
            return False
        state = behind(state, level)
    return True


def least_of_all(symbols, scale=1, is_asked=lambda levels: True):
    """The cost, the start and the levels of the least path: of all lists of levels, those that are asked for and are a path from a start. Of
    several paths of one cost it is the one with the smallest start, and then the first in order of levels."""
    lists = filter(is_asked, itertools.product(range(8), repeat=len(symbols)))
    paths = ((start, levels) for levels in lists for start in STATES if is_path(start, levels))
    return min((cost_of(symbols, levels, scale), start, levels) for start, levels in paths)


# ---- The table ----

def steps(byte, state, scale=1):
    """What a path may do with a symbol in a state: the state behind it, the square and the level. Of two levels that lead to one state
    the nearer one is kept, and of two that are as near the smaller one."""
    kept = []
    for low in (state >> 1, 2 + (state >> 1)):
        level = min((low, low + 4), key=lambda each: (square(byte, each, scale), each))
        kept.append((behind(state, level), square(byte, level, scale), level))
    return kept


STEPS = [[steps(byte, state) for state in STATES] for byte in range(256)]


def least(symbols):
    return least_over(symbols, STEPS)


def least_over(symbols, moves):
    """The same by a table, which is filled from the end: for each symbol and state, what the least path costs from there on."""
    costs = [0, 0, 0, 0]
    table = [costs]
    for symbol in reversed(symbols):
        costs = [min(costs[to] + far, costs[other] + less) for (to, far, _), (other, less, _) in moves[symbol]]
        table.append(costs)
    cost, start = min((cost, state) for state, cost in enumerate(costs))
    state, levels = start, []
    for symbol, costs, left in zip(symbols, table[::-1], table[-2::-1]):
        level, state = min((level, to) for to, far, level in moves[symbol][state] if far + left[to] == costs[state])
        levels.append(level)
    return cost, start, tuple(levels)


# ---- Fields ----


def fields_of(segments):
    """The fields of all runs: where the data of each begin and end. A run is one field behind the other, so all that counts is where
    a segment that is no data looks like a field sync."""
    fields, k = [], 0
    while k < len(segments):
        if looks(segments[k].translate(LEVELS)):
            fields.append((k + 1, min(k + 1 + FIELD, len(segments))))
            k += FIELD
        k += 1
    return fields


def places_of(coder, count):
    """The places of a coder's symbols in the first data segments of a field, segment by segment."""
    return [(g, 4 + p) for g in range(count) for p in range((coder - 4 * (g % 3)) % 12, SEGMENT - 4, 12)]


def softened(segments):
    """The segments with the symbols of the least paths, how many fields have a whole group, and the sum of the costs."""
    made, fields, total = [bytearray(segment) for segment in segments], 0, 0
    for first, end in fields_of(segments):
        whole = (end - first) // 4 * 4
        fields += whole > 0
        for coder in range(12):
            places = places_of(coder, whole)
            cost, _, levels = least([segments[first + g][at] for g, at in places])
            total += cost
            for (g, at), level in zip(places, levels):
                made[first + g][at] = 2 * level - 7 & 255
    return [bytes(segment) for segment in made], fields, total


def soft(symbols):
    """What `soft` makes of symbols, and its line."""
    whole, loose = divmod(len(symbols), SEGMENT)
    made, fields, cost = softened([symbols[at : at + SEGMENT] for at in range(0, SEGMENT * whole, SEGMENT)])
    return b"".join(made), f"segments {whole} fields {fields} cost {cost} loose {loose}"


# ---- Random symbols ----

SYMBOLS = [2 * level - 7 for level in range(8)]
HALFWAY = [symbol + 1 for symbol in SYMBOLS[:-1]]


def made_symbols(chance, count):
    """Symbols of one kind: any bytes, near the levels, halfway between two of them, nothing, the least and the greatest one."""
    of_kind = chance.choice((range(-128, 128), range(-9, 10), HALFWAY, [0], [-128, 127], SYMBOLS))
    return bytes(chance.choice(of_kind) & 255 for _ in range(count))


def noisy(chance, segment, share, reach):
    """A segment to which whole numbers are added, in a share of its symbols."""
    sums = (signed(symbol) + (chance.choice(reach) if chance.random() < share else 0) for symbol in segment)
    return bytes(max(-128, min(127, each)) & 255 for each in sums)


def with_noise(chance, segments):
    """Segments with noise, which mostly spares field syncs, and in which some may be other ones: noise of a few symbols or of all, small,
    or so that they lie halfway between two levels, or any."""
    share = chance.choice((0.001, 0.05, 1))
    reach = chance.choice((range(-1, 2), range(-2, 3), (-1, 1), range(-6, 7), range(-128, 128)))
    spares = chance.random() < 0.8
    made = [each if spares and looks(each.translate(LEVELS)) else noisy(chance, each, share, reach) for each in segments]
    first, count = chance.randrange(len(made) + 1), chance.choice((0, 0, 1, 4, len(made)))
    for k in range(first, min(len(made), first + count)):
        if not looks(made[k].translate(LEVELS)):
            made[k] = made_symbols(chance, SEGMENT)
    return b"".join(made)


def short_cases(chance, lists):
    """Short lists, and whether the table finds what is the least of all paths."""
    for number in range(lists):
        symbols = made_symbols(chance, 6 if number % 50 == 1 else number % 6)
        by_table, by_all = least(symbols), least_of_all(symbols)
        yield f"the symbols {[signed(s) for s in symbols]}", [] if by_table == by_all else [f"{by_table} by the table, not {by_all}"]


def runs_in(symbols):
    """The runs of symbols: the first field sync of each, and how many data segments it has."""
    whole = [symbols[at : at + SEGMENT].translate(LEVELS) for at in range(0, len(symbols) - SEGMENT + 1, SEGMENT)]
    return [(sync, len(data)) for sync, data in runs_of(whole)]


def random_list(chance, coded, has_two):
    """Segments, cut and spliced, or those of two runs, of which the first one ends where no field sync comes."""
    if has_two:
        return coded[: FIELD + 1] + [chance.randbytes(SEGMENT)] + coded[: chance.choice((5, 8, 58))]
    whole = made_list(chance, coded)
    return [whole[at : at + SEGMENT] for at in range(0, len(whole), SEGMENT)][: chance.choice((60, 120, 350))]


def wrongs(dtx, symbols, met):
    """What the program makes otherwise of symbols; and whether the runs stay, of which `receive` makes packets."""
    made, line = soft(symbols)
    met["soft"] += " cost 0 " not in line
    met["copied"] += " fields 0 " in line and len(made) > 0
    met["runs"] += sum(count >= 4 for _, count in runs_in(symbols)) > 1
    with tempfile.TemporaryDirectory() as folder:
        found = differences([dtx, "soft", "in.sym", "out.sym"], folder, {"in.sym": symbols}, {"out.sym": made}, line)
    if runs_in(made) != runs_in(symbols):
        found.append("the runs are not those of the symbols")
    return found


def cases(dtx, lists):
    """Random lists, and what is wrong with what the program makes of them; and what is wrong where none of them is one of a kind."""
    chance, met = random.Random(26), {"soft": 0, "copied": 0, "runs": 0}
    yield from short_cases(chance, 10 * lists)
    coded = coded_segments([b"\x47" + chance.randbytes(PACKET - 1) for _ in range(640)])
    yield "undamaged symbols", [] if softened(coded[:400]) == (coded[:400], 2, 0) else ["they are not their own least paths"]
    for number in range(lists):
        symbols = with_noise(chance, random_list(chance, coded, number % 4 == 0))
        symbols = symbols[: cut_place(chance, symbols) if chance.random() < 0.3 else None]
        yield f"{len(symbols)} bytes", wrongs(dtx, symbols, met)
    yield from kinds_missing(met, lists)


if __name__ == "__main__":
    if sys.argv[1] == "soft":
        sys.exit(answer_file(soft, *sys.argv[2:]))
    sys.exit(try_each("soft", cases(sys.argv[1], int(sys.argv[2]))))

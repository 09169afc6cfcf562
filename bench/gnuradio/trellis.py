#!/usr/bin/env python3
"""What the measure of `soft` needs, over symbols that begin with a field sync and have whole fields. The coders' lists are the symbols of
each of the twelve trellis coders in each field, field by field and coder by coder, as floats.

trellis.py noise DEVIATION IN OUT   adds white noise to symbols, rounded to whole numbers
trellis.py lists IN OUT             gathers the coders' lists of symbols
trellis.py paths IN OUT             finds the least path of each list by GNU Radio's Viterbi decoder: its bits Z2 and Z1 at each step
trellis.py cost LISTS PATHS         tells the sum of the costs of paths
"""

import sys

import numpy

SEGMENT, FIELD, CODERS = 832, 313, 12
STEPS = (FIELD - 1) * (SEGMENT - 4) // CODERS
STATES, INPUTS = 4, 4


def with_noise(deviation, source, sink):
    symbols = numpy.fromfile(source, dtype=numpy.int8)
    random = numpy.random.default_rng(1)
    for at in range(0, len(symbols), FIELD * SEGMENT):
        field = symbols[at : at + FIELD * SEGMENT]
        field[:] = numpy.rint(field + random.normal(0, float(deviation), len(field))).astype(numpy.int8)
    symbols.tofile(sink)


def lists(source, sink):
    """Position p of data segment g of a field is of the coder (p + 4 * g) mod 12 (ATSC A/53 Part 2, trellis code interleaver)."""
    data = numpy.fromfile(source, dtype=numpy.int8).reshape(-1, FIELD, SEGMENT)[:, 1:, 4:].reshape(-1, FIELD - 1, 69, CODERS).copy()
    for turn in range(3):
        data[:, turn::3] = numpy.roll(data[:, turn::3], 4 * turn, axis=-1)
    data.transpose(0, 3, 1, 2).astype(numpy.float32).tofile(sink)


def level(state, bits):
    """The level of the bits 2 * Z2 + Z1 in the state 2 * q1 + q0."""
    return 2 * bits + (state >> 1)


def behind(state, bits):
    return 2 * ((bits & 1) ^ (state & 1)) + (state >> 1)


def paths(source, sink):
    from gnuradio import blocks, digital, gr, trellis

    of_all = [(state, bits) for state in range(STATES) for bits in range(INPUTS)]
    coder = trellis.fsm(INPUTS, STATES, 8, [behind(*each) for each in of_all], [level(*each) for each in of_all])
    symbols = [2.0 * number - 7 for number in range(8)]
    chain = gr.top_block()
    chain.connect(
        blocks.file_source(gr.sizeof_float, source, False),
        trellis.viterbi_combined_fb(coder, STEPS, -1, -1, 1, symbols, digital.TRELLIS_EUCLIDEAN),
        blocks.file_sink(gr.sizeof_char, sink),
    )
    chain.run()


def cost(source, found):
    """Where a path starts isn't told: it is where it costs the least."""
    symbols = numpy.fromfile(source, dtype=numpy.float32).reshape(-1, STEPS).astype(numpy.int64)
    bits = numpy.fromfile(found, dtype=numpy.int8).reshape(-1, STEPS).astype(numpy.int64)
    costs = []
    for start in range(STATES):
        state, total = numpy.full(len(symbols), start), numpy.zeros(len(symbols), dtype=numpy.int64)
        for step in range(STEPS):
            total += (symbols[:, step] - (2 * level(state, bits[:, step]) - 7)) ** 2
            state = behind(state, bits[:, step])
        costs.append(total)
    print(numpy.min(costs, axis=0).sum())


{"noise": with_noise, "lists": lists, "paths": paths, "cost": cost}[sys.argv[1]](*sys.argv[2:])

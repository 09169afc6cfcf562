#!/usr/bin/env python3
"""Damages symbols so that each codeword has so many wrong bytes: damage.py IN OUT MEAN.

IN begins with a field sync and has whole fields. Where MEAN is no whole number, each word has the number above or below it, at
random. A byte is wrong by one of its first three symbols, whose level is eight more or less. So no other byte is (ATSC A/53
Part 2, convolutional interleaver, and trellis coding with the precoder of each of the twelve coders).
"""

import sys

import numpy

SEGMENT, FIELD, WORD, GROUP = 832, 313, 207, 828
BRANCHES, STEP = 52, 4

source, sink, mean = sys.argv[1], sys.argv[2], float(sys.argv[3])
symbols = numpy.fromfile(source, dtype=numpy.int8)
segments = len(symbols) // SEGMENT
words = segments - (segments + FIELD - 1) // FIELD
random = numpy.random.default_rng(1)

# The wrong bytes of each word: the first of an order of all its bytes, which is drawn at random.
most = int(numpy.ceil(mean))
counts = int(mean) + (random.random(words) < mean - int(mean))
chosen = numpy.argsort(random.random((words, WORD), dtype=numpy.float32), axis=1)[:, :most]
kept = numpy.arange(most)[None, :] < counts[:, None]
place = (numpy.arange(words)[:, None] * WORD + chosen)[kept]

# Where the interleaver sends each, and which of a group's symbols it is then.
sent = place + BRANCHES * STEP * (place % BRANCHES)
sent = sent[sent < words // 4 * GROUP]
group, byte = sent // GROUP, sent % GROUP
start = 4 * group % 312
coder = (byte % 12 + 4 * ((start + 4 * (byte // 12) // 69) % 3)) % 12
turn = 4 * (byte // 12) + random.integers(0, 3, len(byte))
symbol = 12 * turn + (coder + 12 - 4 * ((start + turn // 69) % 3)) % 12
data = 4 * group + symbol // GROUP
at = (data + data // 312 + 1) * SEGMENT + 4 + symbol % GROUP

symbols[at] = numpy.where(symbols[at] > 0, symbols[at] - 8, symbols[at] + 8)
symbols.tofile(sink)

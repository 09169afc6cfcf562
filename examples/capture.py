#!/usr/bin/env python3
"""Makes of a symbol file what a receiver might have taken from the air: capture.py SCALE DECIBELS SEED IN OUT [CHANGE]..

A symbol of IN lies at SCALE steps a unit (1 to 18) in OUT, with noise. DECIBELS, with at most two decimals, is how far the data symbols,
whose mean power is 21, stand above the noise. A CHANGE is one of these; cuts count the symbols that were put in.

  --front N       N symbols of noise alone stand in front
  --insert AT N   N symbols of noise alone stand before symbol AT of IN
  --cut A B       the symbols A to B - 1 are missing; may be given more than once
  --constant B    B steps (-64 to 64) are added to every symbol, also to those of noise alone; a pilot that was left in is 1.25 units
  --turned        the symbols of IN have the other sign, as of a receiver that inverts; the constant and the noise have their own

The noise of a symbol is the sum of twelve numbers of 16 bits, less their mean: so it is much like that of a real receiver. All is done in
whole numbers, so the same words make the same file everywhere.
"""

import argparse
import decimal
import itertools
import struct

ONE = 2**16
MEAN = 12 * (ONE - 1) // 2

# The generator, whose states have 64 bits. So many of them are moved on at once, each in 128 bits of one whole number.
FACTOR, ADDED = 6364136223846793005, 1442695040888963407
LANES = 4096
EACH = sum(1 << 128 * lane for lane in range(LANES))


def deviation(decibels):
    """That of the noise, in parts of 2^16, rounded down."""
    with decimal.localcontext(prec=60):
        return int(ONE * decimal.Decimal(21).sqrt() * decimal.Decimal(10) ** (-decimal.Decimal(decibels) / 20))


def ahead(steps):
    """The factor and the added number by which a state moves on so many steps."""
    factor, added = 1, 0
    for _ in range(steps):
        factor, added = factor * FACTOR % 2**64, (added * FACTOR + ADDED) % 2**64
    return factor, added


def moved(states, factor, added):
    """All states, moved on."""
    return states * factor + added * EACH & (2**64 - 1) * EACH


def noise(seed):
    """For each symbol a number of deviation 2^16: the highest 16 bits of each of the next twelve states of a generator."""
    state, states, twelve, others = seed % 2**64, 0, ahead(12), ahead(12 * (LANES - 1))
    for lane in range(LANES):
        states |= state << 128 * lane
        state = (state * twelve[0] + twelve[1]) % 2**64
    while True:
        totals = 0
        for _ in range(12):
            states = moved(states, FACTOR, ADDED)
            totals += states >> 48 & (ONE - 1) * EACH
        for (total,) in struct.iter_unpack("<I12x", totals.to_bytes(16 * LANES, "little")):
            yield total - MEAN
        states = moved(states, *others)


def signed(byte):
    return byte - 256 if byte > 127 else byte


def captured(symbols, gain, constant, width, seed):
    """Symbols at a gain and with a constant and noise, cut off at what a signed byte holds."""
    bases = [(gain * signed(byte) + constant) * ONE**2 + ONE**2 // 2 for byte in range(256)]
    sums = (bases[symbol] + width * added >> 32 for symbol, added in zip(symbols, noise(seed)))
    return bytearray(max(-128, min(127, each)) & 255 for each in sums)


words = argparse.ArgumentParser()
words.add_argument("scale", type=int, choices=range(1, 19))
words.add_argument("decibels")
words.add_argument("seed", type=int)
words.add_argument("source")
words.add_argument("target")
words.add_argument("--front", type=int, default=0)
words.add_argument("--insert", type=int, nargs=2, default=(0, 0))
words.add_argument("--cut", type=int, nargs=2, action="append", default=[])
words.add_argument("--constant", type=int, choices=range(-64, 65), default=0, metavar="B")
words.add_argument("--turned", action="store_true")
given = words.parse_args()
with open(given.source, "rb") as file:
    sent = file.read()
at, count = given.insert
gain, width = -given.scale if given.turned else given.scale, given.scale * deviation(given.decibels)
made = captured(bytes(given.front) + sent[:at] + bytes(count) + sent[at:], gain, given.constant, width, given.seed)
kept = bytearray(b"\1") * len(made)
for first, end in given.cut:
    kept[first:end] = bytes(len(kept[first:end]))
with open(given.target, "wb") as file:
    file.write(bytes(itertools.compress(made, kept)))

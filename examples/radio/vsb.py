"""What the scripts of this folder share: the numbers of 8-VSB and its field sync (ATSC A/53 Part 2), reading words."""

import argparse
import sys
from pathlib import Path

try:
    import gnuradio
    import numpy
except ImportError as missing:
    raise SystemExit("this needs a Python that finds GNU Radio: Debian's gnuradio and python3-numpy") from missing

CHANNEL = 6e6  # Hz, and so many complex samples a second at the least
SYMBOL_RATE = 4.5e6 * 684 / 286
ROLL_OFF = 0.1152
SEGMENT = 832
PILOT = 1.25  # is added to each symbol
POWER = 21  # of the data symbols -7, -5 .. 7, on average
STEPS = 8  # of a soft symbol, one signed byte, to a unit: the scale for `dtx acquire`


class Wrong(Exception):
    """What is wrong, in a line."""


def sequence(start, taps, length):
    """Bits that begin with some, each further one the sum, modulo 2, of those so many places before it."""
    bits = list(start)
    while len(bits) < length:
        bits.append(sum(bits[-back] for back in taps) % 2)
    return bits


def field_sync(second):
    """The first 704 symbols of a field sync, which are those of every station; those behind them tell its mode."""
    long = sequence([0, 0, 0, 0, 0, 0, 0, 1, 0], (2, 3, 5, 6, 8, 9), 511)
    short = sequence([1, 1, 1, 0, 0, 1], (5, 6), 63)
    bits = [1, 0, 0, 1] + long + short + [bit ^ second for bit in short] + short
    return numpy.array([10 * bit - 5 for bit in bits], dtype=numpy.float32)


def words_of(head):
    """A reader of words, which shows the script's head as its help."""
    return argparse.ArgumentParser(description=head, formatter_class=argparse.RawDescriptionHelpFormatter)


def done(main):
    """Does it; what is wrong is said in a line."""
    try:
        main()
    except (Wrong, OSError) as wrong:
        sys.exit(f"{Path(sys.argv[0]).name}: {wrong}")

#!/usr/bin/env python3
"""Undoes what a channel did to soft symbols, by their field syncs: equalize.py IN OUT [TAPS]

IN is what demodulate.py writes: segments of signed bytes, of any gain, constant and polarity. OUT is for
`dtx acquire 8`. TAPS is the last field's taps, a line each: by how many symbols the symbol that it weights comes
earlier, and the weight, of which the greatest is 1.

From each field sync on, those taps and that constant are used that make of it, and with less weight of those before
it, most nearly what the standard has there (least squares). What stands before the first field sync becomes 0.
"""

from vsb import SEGMENT, STEPS, Wrong, done, field_sync, numpy, words_of

SIDE = 48  # taps before the symbol, and as many behind it
SIZE = 2 * SIDE + 1
MEMORY = 0.9  # the weight of what was, at each field sync
CHANGED = 2  # taps that miss a field sync by so much more power than its own are of a channel that is no more
ALIKE = 515 - 2 * 128  # of the first 515 signs at most 128 are others: the rule of `dtx acquire`
SYNCS = field_sync(0), field_sync(1)
MIDDLE = slice(578, 641)  # is inverted in second fields
KNOWN = len(SYNCS[0])


class Taps:
    """The least squares of the field syncs so far."""

    def __init__(self):
        self.squares, self.products = numpy.zeros((SIZE + 1, SIZE + 1)), numpy.zeros(SIZE + 1)
        self.left = []  # the power that the taps of each field sync left

    def solved(self):
        little = numpy.eye(SIZE + 1) * 1e-6 * numpy.trace(self.squares) / SIZE
        return numpy.linalg.solve(self.squares + little, self.products)

    def learn(self, seen, wanted):
        """Takes in a field sync, of which each line of `seen` is to make a symbol, and gives the taps."""
        before = self.solved() if self.left else None
        memory = self.squares, self.products
        self.squares, self.products = seen.T @ seen, seen.T @ wanted
        own = numpy.mean((seen @ self.solved() - wanted) ** 2)
        if before is not None and numpy.mean((seen @ before - wanted) ** 2) < CHANGED * own:
            self.squares += MEMORY * memory[0]
            self.products += MEMORY * memory[1]
        taps = self.solved()
        self.left.append(numpy.mean((seen @ taps - wanted) ** 2))
        return taps


def field_syncs(segments):
    """Their places, and which are inverted: by the signs of their first 515 symbols."""
    agreement = numpy.sign(segments[:, :515]) @ numpy.sign(SYNCS[0][:515])
    places = numpy.flatnonzero(numpy.abs(agreement) >= ALIKE)
    return places, numpy.sign(agreement[places])


def windows(padded, at):
    """A line for each symbol of a field sync: the symbols around it, and 1."""
    seen = numpy.lib.stride_tricks.sliding_window_view(padded[at : at + KNOWN + 2 * SIDE], SIZE)
    return numpy.column_stack([seen, numpy.ones(KNOWN)])


def filtered(stretch, taps):
    """The sum of the symbols around each one, weighted by the taps."""
    length = 1 << (len(stretch) + SIZE).bit_length()
    lines = numpy.fft.rfft(stretch, length) * numpy.conj(numpy.fft.rfft(taps[:-1], length))
    return numpy.fft.irfft(lines, length)[: len(stretch) - 2 * SIDE] + taps[-1]


def equalized(symbols):
    """The symbols put right in units of a level, the last taps, and the power that was left at each field sync."""
    segments = symbols.reshape(-1, SEGMENT)
    places, turns = field_syncs(segments)
    if not len(places):
        raise Wrong("no field sync")
    padded, taps, all_taps = numpy.pad(symbols, SIDE), None, Taps()
    out = numpy.zeros_like(symbols)
    for place, turn, end in zip(places, turns, [*places[1:], len(segments)]):
        at, behind = place * SEGMENT, end * SEGMENT
        middle = turn * segments[place, MIDDLE] @ SYNCS[0][MIDDLE]
        taps = all_taps.learn(windows(padded, at), SYNCS[int(middle < 0)])
        out[at:behind] = filtered(padded[at : behind + 2 * SIDE], taps)
    return out, taps, all_taps.left


def main():
    reader = words_of(__doc__)
    reader.add_argument("source")
    reader.add_argument("out")
    reader.add_argument("taps", nargs="?")
    given = reader.parse_args()
    symbols = numpy.fromfile(given.source, dtype=numpy.int8).astype(numpy.float32)
    out, taps, left = equalized(symbols[: len(symbols) // SEGMENT * SEGMENT])
    numpy.clip(numpy.rint(STEPS * out), -128, 127).astype(numpy.int8).tofile(given.out)
    if given.taps:
        lines = [f"{SIDE - k} {tap:.4f}\n" for k, tap in enumerate(taps[:-1] / numpy.abs(taps[:-1]).max())]
        with open(given.taps, "w") as file:
            file.writelines(lines)
    decibels = 10 * numpy.log10(25 / numpy.mean(left))
    print(f"field syncs {len(left)}, which stand {decibels:.1f} dB above what is left")


if __name__ == "__main__":
    done(main)

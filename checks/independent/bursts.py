#!/usr/bin/env python3
"""Counts, by the written rules alone, how many symbols in a row may be wrong or missing. For each symbol at which they may begin, within a
period of the interleaver and the coders, it counts the bytes that hang on them, word by word.

bursts.py    prints the greatest numbers, and ends with the line `bursts: N passed, M failed`
"""

import sys
from collections import Counter

SEGMENT, SYNC, DATA = 832, 4, 828
PERIOD = 156  # data segments: 39 groups, which are whole turns of the 52 branches and of the 12 coders
BEFORE = 60   # segments before the first start, so that each word is whole


def place_of(round_, coder):
    """The data symbol of a coder in a round: the coders move on by four from segment to segment, of 69 rounds each."""
    return 12 * round_ + (coder - 4 * (round_ // 69)) % 12


def bytes_by_symbol(rounds):
    """The bytes that hang on each data symbol: the one that its pair is of, and the one that its coder's next pair is of."""
    hanging = {}
    for round_ in range(rounds):
        for coder in range(12):
            own, after = (12 * (r // 4) + (coder - 4 * (4 * (r // 4) // 69)) % 12 for r in (round_, round_ + 1))
            hanging[place_of(round_, coder)] = {own, after}
    return hanging


def word_of(byte):
    """The word that a byte on the air is of: byte m of all words stands at place m + 208 * (m mod 52)."""
    return (byte - 208 * (byte % 52)) // 207


class Window:
    """Symbols in a row, and how many bytes of each word hang on them."""

    def __init__(self, hanging):
        self.hanging, self.held, self.words = hanging, Counter(), Counter()

    def bytes_of(self, symbol):
        segment, at = divmod(symbol, SEGMENT)
        return self.hanging[DATA * segment + at - SYNC] if at >= SYNC else ()

    def add(self, symbol):
        """Takes a symbol in, and answers the most bytes of a word that one of its bytes is of."""
        for byte in self.bytes_of(symbol):
            self.held[byte] += 1
            self.words[word_of(byte)] += self.held[byte] == 1
        return max((self.words[word_of(byte)] for byte in self.bytes_of(symbol)), default=0)

    def drop(self, symbol):
        for byte in self.bytes_of(symbol):
            self.held[byte] -= 1
            self.words[word_of(byte)] -= self.held[byte] == 0


def greatest(hanging, most):
    """The greatest number of symbols in a row, from any start, on which no more bytes of any word hang; the least over all starts."""
    window, first, end = Window(hanging), BEFORE * SEGMENT, BEFORE * SEGMENT
    lengths = []
    for start in range(first, first + PERIOD * SEGMENT):
        while window.add(end) <= most:
            end += 1
        window.drop(end)
        lengths.append(end - start)
        window.drop(start)
    return min(lengths)


def main():
    hanging = bytes_by_symbol(69 * (BEFORE + PERIOD + 8))
    passed = 0
    for most, wanted, what in (10, 2022, 'wrong'), (20, 4141, 'missing'):
        number = greatest(hanging, most)
        print(f'bursts: {number} symbols in a row may be {what}, which last {number * 286 / (4.5 * 684):.1f} microseconds')
        passed += number == wanted
    print(f'bursts: {passed} passed, {2 - passed} failed')
    return passed < 2


if __name__ == '__main__':
    sys.exit(main())

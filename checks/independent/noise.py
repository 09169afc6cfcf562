#!/usr/bin/env python3
"""Makes symbols of fields of noise, with their field syncs.

noise.py SEGMENTS OUT
"""

import sys

from exciter import field_sync

LAST = ([7, -5, -3, -1, 1, 3, 5, 7, -7, 5, 3, -1], [7] * 12)


def noise(n):
    """Symbol n, which is any byte, in two's complement."""
    x = n * 2_654_435_761 & 0xFFFFFFFF
    x ^= x >> 15
    x = x * 2_246_822_519 & 0xFFFFFFFF
    return (x ^ x >> 13) % 256 ^ 128


def segment(number):
    """A segment: the sync of a field, or noise."""
    field, place = divmod(number, 313)
    if place == 0:
        return bytes(symbol & 255 for symbol in field_sync(False, LAST[field > 0]))
    first = 832 * (312 * field + place)
    return bytes(noise(first + i) for i in range(832))


if __name__ == "__main__":
    with open(sys.argv[2], "wb") as out:
        out.writelines(segment(number) for number in range(int(sys.argv[1])))

#!/usr/bin/env python3
"""Changes packet 100 of a feed, which is its first operations packet; it shares nothing with dtx.

lies.py FEED CHANGE OUT    CHANGE is a word of CHANGES; the parity bytes are right, but where the change is of those
"""

import sys

from reference import MOST, PACKET, entries_at, misread, parity_bytes

PLACE = 100 * PACKET
# Where the fields of the data stand: kind, states and four bits of 0, stamp, maximum delay, frame, index; in kind 2 also page and number of
# pages. Behind them the count of the entries stands just before these.
KIND, PAD, STAMP, DELAY, INDEX, PAGE, PAGES = 0, 5, 6, 9, 16, 18, 19
TOO_MANY = 10_000_000


def put(place, number, size):
    """Sets a number of so many bytes."""
    def change(data):
        data[place:place + size] = number.to_bytes(size, "big")
    return change


def entry(number):
    """A change of the address of an entry; the first entry's becomes 8, that of the second the first one's."""
    def change(data):
        at = entries_at(data[KIND])
        data[at + 4 * number : at + 4 * number + 2] = data[at : at + 2] if number else b"\0\x08"
    return change


def pad(data):
    data[PAD] |= 1


def fill(data):
    at = entries_at(data[KIND])
    data[at + 4 * data[at - 1] :] = bytes(163 - at - 4 * data[at - 1]) + b"\1"


def count(data):
    """One entry too many for the kind, of which there is room, with another address each."""
    at, number = entries_at(data[KIND]), MOST[data[KIND]] + 1
    added = b"".join((1000 + k).to_bytes(2, "big") + b"\0\0" for k in range(data[at - 1], number))
    data[at + 4 * data[at - 1] : at + 4 * number] = added
    data[at - 1] = number


def no_pages_and_count(data):
    put(PAGES, 0, 1)(data)
    count(data)


# Each change, and the rule that the changed packet is the first to break, if any.
CHANGES = {
    "kind": (put(KIND, 0, 1), "Kind"),
    "third": (put(KIND, 3, 1), "Kind"),
    "pad": (pad, "Pad"),
    "stamp": (put(STAMP, TOO_MANY, 3), "Stamp"),
    "delay": (put(DELAY, TOO_MANY, 3), "Delay"),
    "index": (put(INDEX, 624, 2), "Index"),
    "page": (put(PAGE, 2, 1), "Page"),
    "no-pages": (put(PAGES, 0, 1), "Page"),
    "pages": (put(PAGES, 31, 1), "Page"),
    "no-pages-and-count": (no_pages_and_count, "Page"),
    "count": (count, "Count"),
    "twice": (entry(1), "Twice"),
    "fill": (fill, "Fill"),
    "place": (put(INDEX, 99, 2), None),
    "address": (entry(0), None),
}


def changed(packet, word):
    """The packet with that change."""
    if word == "pid":
        return packet[:2] + b"\xfb" + packet[3:]
    if word in ("ten", "eleven"):
        wrong = 10 if word == "ten" else 11
        return packet[:4] + bytes(byte ^ 0x55 for byte in packet[4:4 + wrong]) + packet[4 + wrong:]
    data, (change, broken) = bytearray(packet[4:168]), CHANGES[word]
    change(data)
    if misread(bytes(data)) != broken:
        sys.exit(f"{word}: breaks the rule {misread(bytes(data))}, not {broken}")
    return packet[:4] + bytes(data) + parity_bytes(bytes(data))


def main(feed, word, out):
    with open(feed, "rb") as file:
        packets = file.read()
    packet = changed(packets[PLACE:PLACE + PACKET], word)
    with open(out, "wb") as file:
        file.write(packets[:PLACE] + packet + packets[PLACE + PACKET:])


if __name__ == "__main__":
    main(*sys.argv[1:])

#!/usr/bin/env python3
"""Tells which packets came back: compare.py FEED PACKETS [FROM]

Each packet is sought in the feed by all but its sync byte, which isn't sent. It is right where the feed has it, behind
the one before; flagged where it has the transport error indicator; and else wrong, which makes the status 1. Those
before packet FROM of the feed aren't counted; one that the feed hasn't stands behind the one before it.
"""

import sys
from pathlib import Path


def packets_of(name):
    stream = Path(name).read_bytes()
    return [stream[at + 1 : at + 188] for at in range(0, len(stream) - 187, 188)]


def main(feed, packets, start="0"):
    places = {packet: place for place, packet in enumerate(packets_of(feed))}
    counts, last = {"right": 0, "flagged": 0, "wrong": 0}, -1
    for packet in packets_of(packets):
        place = places.get(packet, -1)
        kind = "right" if place > last else "flagged" if packet[0] >= 128 else "wrong"
        last = place if kind == "right" else last + 1
        counts[kind] += last >= int(start)
    print(*(f"{kind} {count}" for kind, count in counts.items()))
    return int(counts["wrong"] > 0)


if __name__ == "__main__":
    try:
        sys.exit(main(*sys.argv[1:]) if 3 <= len(sys.argv) <= 4 else "compare.py FEED PACKETS [FROM]")
    except (OSError, ValueError) as wrong:
        sys.exit(f"compare.py: {wrong}")

#!/usr/bin/env python3
"""Tries `dtx place` on random streams, against the written rules.

place.py DTX STREAMS    names each stream that differs, and ends with the line `place: N passed, M failed`
"""

import random
import sys
import tempfile

from network import differences
from reference import FIELD, PACKET, try_each

NULL, PLACEHOLDER, FIRST = 0x1FFF, 0x1FFA, 52


def pid(packet):
    return (packet[1] & 0x1F) << 8 | packet[2]


def is_placed(packets, k):
    """The packet becomes a placeholder: a null packet, and behind place 51 of its field none before it is one, or a placeholder."""
    first = k - k % FIELD + FIRST
    return pid(packets[k]) == NULL and k >= first and all(pid(p) not in (NULL, PLACEHOLDER) for p in packets[first:k])


def placed(packets):
    return [p[:2] + b"\xfa" + p[3:] if is_placed(packets, k) else p for k, p in enumerate(packets)]


def line_of(packets, loose):
    """The line that a stream owes."""
    made = placed(packets)
    fields = [made[at : at + FIELD] for at in range(0, len(made), FIELD)]
    bare = sum(all(pid(p) != PLACEHOLDER for p in field[FIRST:]) for field in fields)
    changed = sum(p != q for p, q in zip(packets, made))
    return f"packets {len(packets)} placed {changed} bare {bare} loose {loose}"


def made_packet(chance, share):
    """A packet of any bytes behind the sync byte, of which a share are null packets and a few are placeholders."""
    number = chance.choices((NULL, PLACEHOLDER, chance.randrange(0x2000), 0x1FFE, 0x0FFF), (share, share / 8, 1, 0.1, 0.1))[0]
    return bytes((0x47, chance.randrange(8) << 5 | number >> 8, number & 0xFF)) + chance.randbytes(PACKET - 3)


def cases(dtx, streams):
    """Random streams, and what is wrong with what the program makes of them."""
    chance = random.Random(11)
    for _ in range(streams):
        count = chance.choice((0, 1, 52, 53, 311, 312, 313, 364, 365, chance.randrange(1500), chance.randrange(1500)))
        share = chance.choice((0, 0.002, 0.02, 0.5, 5))
        packets = [made_packet(chance, share) for _ in range(count)]
        loose = chance.choice((0, 0, 1, 187))
        line, wanted = line_of(packets, loose), placed(packets)
        if count and chance.random() < 0.2:
            refused = chance.randrange(count)
            packets[refused] = b"\x46" + packets[refused][1:]
            line, wanted = f"packet {refused}", placed(packets[:refused])
        inputs = {"in.ts": b"".join(packets) + chance.randbytes(loose)}
        with tempfile.TemporaryDirectory() as folder:
            wrong = differences([dtx, "place", "in.ts", "out.ts"], folder, inputs, {"out.ts": b"".join(wanted)}, line)
        yield f"{count} packets", wrong


if __name__ == "__main__":
    sys.exit(try_each("place", cases(sys.argv[1], int(sys.argv[2]))))

#!/usr/bin/env python3
"""Tries `dtx hurt` on random files and damage, against the written rules.

hurt.py DTX FILES    names each file that differs, and ends with the line `hurt: N passed, M failed`
"""

import random
import sys
import tempfile

from network import differences, end_of, first_past, hurt, tables
from reference import try_each


def made_entry(chance, least, most):
    """An entry of damage that begins at the least place or behind it, mostly so that it ends at the most one or before it."""
    at = least + chance.choice((0, 1, chance.randrange(max(1, most - least))))
    count = chance.choice((1, 2, chance.randrange(1, 5000), max(1, most - at), chance.randrange(1, max(2, most - at))))
    return {"at": at} | ({"count": count} if count > 1 or chance.random() < 0.5 else {}) | {"put": chance.randrange(-128, 128)}


def made_damage(chance, length):
    """Entries in order, of which the last ones may end past the file: just past it or far behind."""
    if chance.random() < 0.1 and length:
        return [{"at": 0, "count": length, "put": -1}]
    entries = []
    for _ in range(chance.choice((0, 1, 2, 3, 50))):
        entries.append(made_entry(chance, end_of(entries[-1]) if entries else 0, length))
        if end_of(entries[-1]) > length:
            entries.pop()
            break
    if chance.random() < 0.25:
        at = end_of(entries[-1]) if entries else 0
        entries.append({"at": at, "count": length - at + chance.choice((1, 1, 500_000_000_000)), "put": 7})
        entries.append({"at": end_of(entries[-1]), "put": 9})
    return entries


def line_of(damage, length):
    """The line that a file of some length owes."""
    past = first_past([end_of(entry) for entry in damage], length)
    if past is not None:
        return f"out of air {past}"
    return f"bytes {length} damaged {sum(entry.get('count', 1) for entry in damage)}"


def cases(dtx, files):
    """Random files and damage, and what is wrong with what the program makes of them."""
    chance = random.Random(9)
    for _ in range(files):
        length = chance.choice((0, 1, 831, 262_143, 262_144, 262_145, 524_288, chance.randrange(700_001), chance.randrange(700_001)))
        whole, damage = chance.randbytes(length), made_damage(chance, length)
        inputs = {"in": whole, "changes.toml": tables("damage", damage).encode() or b"damage = []\n"}
        older = {"out": chance.randbytes(chance.randrange(900_000))} if chance.random() < 0.3 else {}
        with tempfile.TemporaryDirectory() as folder:
            wrong = differences(
                [dtx, "hurt", "in", "changes.toml", "out"], folder, older | inputs, {"out": hurt(whole, damage)}, line_of(damage, length)
            )
        yield f"{length} bytes, damage {damage[:3]}", wrong


if __name__ == "__main__":
    sys.exit(try_each("hurt", cases(sys.argv[1], int(sys.argv[2]))))

#!/usr/bin/env python3
"""Makes streams for the checks, after the written rules; it shares nothing with dtx. What the independent programs share stands here
too.

reference.py feed IN OUT [PLAN]    adapts a stream under a plan, or under that of examples/two-sites.toml
reference.py zeros N OUT           a stream of N packets whose coded bytes are all 0
"""

import functools
import sys
import tomllib

PACKET, FIELD, FRAME = 188, 312, 624
TWO_SITES = {"start": 0, "max_delay": 5_000_000, "transmitter": [{"address": 7, "offset": -10}, {"address": 9, "offset": 25}]}


def multiplied(a, b):
    """The product of two bytes modulo x^8 + x^4 + x^3 + x^2 + 1."""
    product = 0
    while b:
        if b & 1:
            product ^= a
        a <<= 1
        if a & 256:
            a ^= 0x11D
        b >>= 1
    return product


POWERS = [1]
for _ in range(254):
    POWERS.append(multiplied(POWERS[-1], 2))
LOGS = {power: log for log, power in enumerate(POWERS)}


# How many parity bytes a codeword of the air has, and of the operations packet.
PARITY = 20


def generator(parity):
    """The product of x + alpha^i for each i below a number, highest coefficient first."""
    product = [1]
    for i in range(parity):
        product = [a ^ multiplied(b, POWERS[i]) for a, b in zip(product + [0], [0] + product)]
    return product


@functools.cache
def rows(parity):
    """The multiples of the generator's lower coefficients, for each byte, as numbers of so many bytes."""
    factors = generator(parity)[1:]
    return [int.from_bytes(bytes(multiplied(factor, c) for c in factors), "big") for factor in range(256)]


def parity_bytes(data, parity=PARITY):
    """The bytes behind the data of a codeword: the remainder of a division."""
    rest, multiples, most = 0, rows(parity), 2 ** (8 * parity)
    for byte in data:
        rest = (rest << 8) % most ^ multiples[byte ^ rest >> 8 * parity - 8]
    return rest.to_bytes(parity, "big")


def product_of(a, b):
    """The product of two bytes of the field, by logarithms."""
    return POWERS[(LOGS[a] + LOGS[b]) % 255] if a and b else 0


def value(coefficients, power):
    """The value of a polynomial, highest coefficient first, at a power of alpha."""
    total = 0
    for coefficient in coefficients:
        total = product_of(total, POWERS[power % 255]) ^ coefficient
    return total


def locator(syndromes):
    """The shortest recurrence of the syndromes, lowest coefficient first, by the method of Berlekamp and Massey."""
    found, before, length, gap, last = [1], [1], 0, 1, 1
    for n in range(len(syndromes)):
        off = 0
        for coefficient, syndrome in zip(found, reversed(syndromes[: n + 1])):
            off ^= product_of(coefficient, syndrome)
        if off == 0:
            gap += 1
            continue
        factor = POWERS[(LOGS[off] - LOGS[last]) % 255]
        added = [0] * gap + [product_of(factor, coefficient) for coefficient in before]
        size = max(len(found), len(added))
        longer = [a ^ b for a, b in zip(found + [0] * (size - len(found)), added + [0] * (size - len(added)))]
        if 2 * length <= n:
            before, length, gap, last = found, n + 1 - length, 1, off
        else:
            gap += 1
        found = longer
    return found, length


def is_codeword(word, parity=PARITY):
    return parity_bytes(word[:-parity], parity) == word[-parity:]


def corrected(word, parity=PARITY):
    """The codeword that differs from a word in at most half as many places as it has parity bytes, or nothing. What is found is
    tested, so it is one; and where there is one, the recurrence of the syndromes finds its places."""
    if is_codeword(word, parity):
        return word
    count = len(word)
    syndromes = [value(word, i) for i in range(parity)]
    recurrence, length = locator(syndromes)
    powers = [power for power in range(count) if value(recurrence[::-1], -power) == 0]
    if length > parity // 2 or len(powers) != length:
        return None
    over = [0] * parity
    for i, coefficient in enumerate(recurrence):
        for j in range(parity - i):
            over[i + j] ^= product_of(coefficient, syndromes[j])
    slope = [coefficient if i % 2 == 0 else 0 for i, coefficient in enumerate(recurrence[1:])]
    mended = bytearray(word)
    for power in powers:
        below = value(slope[::-1], -power)
        if below == 0:
            return None
        error = product_of(product_of(value(over[::-1], -power), POWERS[power]), POWERS[(255 - LOGS[below]) % 255])
        mended[count - 1 - power] ^= error
    return bytes(mended) if is_codeword(bytes(mended), parity) else None


def whitening():
    """The randomizer's bytes for a field."""
    register, out = 0xF180, bytearray()
    taps = (0, 2, 3, 6, 10, 11, 12, 13)
    for _ in range(187 * FIELD):
        out.append(sum((register >> tap & 1) << bit for bit, tap in enumerate(taps)))
        top = register >> 15
        register = register << 1 & 0xFFFF
        if top:
            register ^= 0b0011_1000_1100_1011
    return bytes(out)


WHITE = whitening()


def whitened(data, place):
    """The 187 bytes of a packet at a place of its field with the randomizer's added, which takes them away again too."""
    return bytes(a ^ b for a, b in zip(data, WHITE[187 * place : 187 * place + 187]))


@functools.cache
def coded(packet, place):
    """The codeword of a packet at a place of its field."""
    data = whitened(packet[1:], place)
    return data + parity_bytes(data)


# For a state 4 * q2 + 2 * q1 + q0 and a byte: the state after the byte's four pairs.
def after_byte(state, byte):
    q2, q1, q0 = state >> 2, state >> 1 & 1, state & 1
    for shift in (6, 4, 2, 0):
        x2, x1 = byte >> shift + 1 & 1, byte >> shift & 1
        q2, q1, q0 = q2 ^ x2, x1 ^ q0, q1
    return 4 * q2 + 2 * q1 + q0


AFTER = [[after_byte(state, byte) for byte in range(256)] for state in range(8)]


def states_after(states, place, data):
    """The twelve coders' states behind a group's 828 interleaved bytes, its first packet at that place of its field."""
    states = list(states)
    for group in range(69):
        turn = 4 * ((place + 4 * group // 69) % 3)
        for coder in range(12):
            states[coder] = AFTER[states[coder]][data[12 * group + (coder - turn) % 12]]
    return states


def is_placeholder(packet):
    return packet[1] & 0x1F == 0x1F and packet[2] == 0xFA


# The most entries of an operations packet, by its kind, and the most pages of a network. Kind 1 has all of a network's transmitters, and is
# page 0 of one page; kind 2 has those of a page.
MOST, MOST_PAGES = {1: 35, 2: 34}, 30


def spelled(head, counter, fields):
    """The operations packet of a sync byte, a counter and fields."""
    bits = 0
    for state in fields["states"]:
        bits = 8 * bits + state
    data = bytes([fields["kind"]]) + (16 * bits).to_bytes(5, "big")
    data += fields["stamp"].to_bytes(3, "big") + fields["max_delay"].to_bytes(3, "big")
    data += fields["frame"].to_bytes(4, "big") + fields["index"].to_bytes(2, "big")
    data += bytes([fields["page"], fields["pages"]]) if fields["kind"] == 2 else b""
    data += bytes([len(fields["offsets"])])
    for address, offset in fields["offsets"].items():
        data += address.to_bytes(2, "big") + offset.to_bytes(2, "big", signed=True)
    data = data.ljust(164, b"\0")
    return bytes([head, 0x1F, 0xFA, 0x10 + counter % 16]) + data + parity_bytes(data)


def entries_at(kind):
    """Where the entries stand in the data of an operations packet; their count is the byte before them."""
    return 21 if kind == 2 else 19


def said(data):
    """The fields that the data of an operations packet say, of which the offsets are those of the entries that there may be."""
    bits, at = int.from_bytes(data[1:6], "big"), entries_at(data[0])
    count = min(data[at - 1], MOST.get(data[0], 0))
    entries = [(data[place : place + 2], data[place + 2 : place + 4]) for place in range(at, at + 4 * count, 4)]
    return {
        "kind": data[0],
        "states": [bits >> 4 >> 3 * (11 - coder) & 7 for coder in range(12)],
        "stamp": int.from_bytes(data[6:9], "big"),
        "max_delay": int.from_bytes(data[9:12], "big"),
        "frame": int.from_bytes(data[12:16], "big"),
        "index": int.from_bytes(data[16:18], "big"),
        "page": data[18] if data[0] == 2 else 0,
        "pages": data[19] if data[0] == 2 else 1,
        "offsets": {int.from_bytes(address, "big"): int.from_bytes(offset, "big", signed=True) for address, offset in entries},
    }


def misread(data):
    """Why the data of an operations packet don't read: the first rule that they break, or nothing."""
    fields, at = said(data), entries_at(data[0])
    count = data[at - 1]
    rules = (
        ("Kind", fields["kind"] not in MOST),
        ("Pad", data[5] % 16 > 0),
        ("Stamp", fields["stamp"] >= 10_000_000),
        ("Delay", fields["max_delay"] >= 10_000_000),
        ("Index", fields["index"] >= FRAME),
        ("Page", not fields["page"] < fields["pages"] <= MOST_PAGES),
        ("Count", count > MOST.get(fields["kind"], 0)),
        ("Twice", len(fields["offsets"]) < count),
        ("Fill", any(data[at + 4 * count :])),
    )
    return next((name for name, is_broken in rules if is_broken), None)


@functools.cache
def refusal(packet):
    """Why a packet doesn't read as an operations packet, or nothing where it does."""
    if not is_placeholder(packet):
        return "NotOps"
    codeword = corrected(packet[4:])
    return misread(codeword[:164]) if codeword else "Uncorrectable"


@functools.cache
def read(packet):
    """The fields that a packet reads as, or nothing."""
    return None if refusal(packet) else said(corrected(packet[4:])[:164])


def packets_of(stream):
    """The whole packets of a stream."""
    return [bytes(stream[at : at + PACKET]) for at in range(0, len(stream) - PACKET + 1, PACKET)]


def listed(plan, turn):
    """The kind of an operations packet, its page, the number of pages and the offsets, where so many groups before it have one."""
    transmitters = plan["transmitter"]
    kind = 1 if len(transmitters) <= MOST[1] else 2
    pages = -(-len(transmitters) // MOST[2]) if kind == 2 else 1
    page = turn % pages
    shown = transmitters[MOST[2] * page : MOST[2] * (page + 1)] if kind == 2 else transmitters
    return {"kind": kind, "page": page, "pages": pages, "offsets": {each["address"]: each["offset"] for each in shown}}


def adapted(stream, plan=TWO_SITES):
    """The feed of a stream under a plan: marks, and operations packets in the place of the placeholders."""
    feed, coded_bytes, states, filled, turn = bytearray(), bytearray(), [0] * 12, 0, 0
    packets = packets_of(stream)
    for first in range(0, len(packets), 4):
        group = packets[first : first + 4]
        for k, packet in enumerate(group, first):
            head = 0xB8 if k % FRAME == 0 else 0x47
            packet = bytes([head]) + packet[1:]
            if is_placeholder(packet):
                fields = {
                    "states": states,
                    "stamp": (plan["start"] * 1539 + k // FRAME * 744_789_760) // 1539 % 10_000_000,
                    "max_delay": plan["max_delay"],
                    "frame": k // FRAME,
                    "index": k % FRAME,
                }
                packet = spelled(head, filled, fields | listed(plan, turn))
                filled += 1
            feed += packet
            coded_bytes += coded(packet, k % FIELD)
        turn += any(is_placeholder(packet) for packet in group)
        if len(group) == 4:
            start = 207 * first
            places = (n - 208 * (n % 52) for n in range(start, start + 828))
            states = states_after(states, first % FIELD, [coded_bytes[m] if m >= 0 else 0 for m in places])
    return bytes(feed)


def zeros(count):
    """Packets that the randomizer turns to 0."""
    return b"".join(b"\x47" + WHITE[187 * place : 187 * place + 187] for place in (k % FIELD for k in range(count)))


def kinds_missing(met, tries, what="lists"):
    """What is wrong with random tries where one of the kinds that were counted never came."""
    for kind, number in met.items():
        if not number:
            yield f"all {what}", [f"none of {tries} is one of kind '{kind}'"]


def answer_file(answer, source, target):
    """Writes what is made of a file's bytes, prints the line, and gives the status that follows it."""
    with open(source, "rb") as file:
        made, line = answer(file.read())
    with open(target, "wb") as file:
        file.write(made)
    print(line)
    return 10 if line == "no sync" else 0


def try_each(name, cases):
    """Goes through cases, each with what it is and what is wrong with it: names those that failed, and ends with their numbers."""
    passed = failed = 0
    for number, (case, wrong) in enumerate(cases):
        if wrong:
            failed += 1
            print(f"FAILED: number {number}, {case}: {'; '.join(wrong)}")
        else:
            passed += 1
    print(f"{name}: {passed} passed, {failed} failed")
    return failed > 0


if __name__ == "__main__":
    kind, given, target = sys.argv[1:4]
    if kind == "zeros":
        made = zeros(int(given))
    else:
        plan = tomllib.loads(open(sys.argv[4]).read()) if len(sys.argv) > 4 else TWO_SITES
        made = adapted(open(given, "rb").read(), plan)
    open(target, "wb").write(made)

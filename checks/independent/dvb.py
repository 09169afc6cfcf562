#!/usr/bin/env python3
"""Tries `dtx dvb code` and `dtx dvb read` on random streams and on damaged and cut ones, against the written rules over whole lists, and
against what follows of them: with at most eight wrong bytes in each word the packets come back.

dvb.py DTX STREAMS    names each stream that differs, and ends with the line `dvb: N passed, M failed`
dvb.py code IN OUT    codes the packets of IN, and prints the line of `dvb code`
dvb.py read IN OUT    reads the blocks of IN, and prints the line of `dvb read`
"""

import random
import sys
import tempfile

from network import differences
from reference import PACKET, corrected, packets_of, parity_bytes, try_each

BLOCK, PARITY, GROUP = 204, 16, 8
BRANCHES, STEP = 12, 17
LOAD = "100101010000000"


def randomizer():
    """The bytes that a group of eight packets is added to: those of a register of fifteen bits, whose two last ones give the next bit.
    The first sync byte is inverted; at the others the register goes on, and its bits are left out."""
    register, bits = [int(bit) for bit in LOAD], []
    for _ in range(8 * (GROUP * PACKET - 1)):
        bits.append(register[13] ^ register[14])
        register = [bits[-1]] + register[:-1]
    out = bytearray([0xFF]) + bytes(int("".join(map(str, bits[at : at + 8])), 2) for at in range(0, len(bits), 8))
    for sync in range(PACKET, len(out), PACKET):
        out[sync] = 0
    return bytes(out)


RANDOMIZER = randomizer()


def randomized(packet, k):
    """The 188 bytes of packet k with the randomizer's added, which takes them away again too."""
    start = PACKET * (k % GROUP)
    return bytes(a ^ b for a, b in zip(packet, RANDOMIZER[start : start + PACKET]))


def block_of(packet, k):
    data = randomized(packet, k)
    return data + parity_bytes(data, PARITY)


def coded(packets):
    """The bytes of a list of packets."""
    x = b"".join(block_of(packet, k) for k, packet in enumerate(packets))
    places = (n - BRANCHES * STEP * (n % BRANCHES) for n in range(len(x)))
    return bytes(x[m] if m >= 0 else 0 for m in places)


def sent_at(m):
    """Where byte m of the blocks is sent."""
    return m + BRANCHES * STEP * (m % BRANCHES)


def packet_of(word, k):
    """The packet of a word, how many bytes were put right, and whether it has a correction."""
    codeword = corrected(word, PARITY)
    packet = randomized((codeword or word)[:PACKET], k)
    if codeword is None:
        return bytes([0x47, packet[1] | 0x80]) + packet[2:], 0, False
    return b"\x47" + packet[1:], sum(a != b for a, b in zip(codeword, word)), True


def read(sent):
    """What is read: each packet whose bytes are all there."""
    y, given = sent[: len(sent) // BLOCK * BLOCK], []
    for k in range(len(y) // BLOCK):
        places = [sent_at(m) for m in range(BLOCK * k, BLOCK * k + BLOCK)]
        if max(places) < len(y):
            given.append(packet_of(bytes(y[place] for place in places), k))
    return given


def code_line(stream):
    return "packets {} loose {}".format(*divmod(len(stream), PACKET))


def read_line(sent, given):
    blocks, loose = divmod(len(sent), BLOCK)
    fixed, flagged = sum(fixed for _, fixed, _ in given), sum(not good for _, _, good in given)
    return f"blocks {blocks} packets {len(given)} fixed {fixed} flagged {flagged} loose {loose}"


# ---- Random streams ----


def damaged(chance, sent, most):
    """Bytes in which each word has some wrong ones, up to a number, at random places and mostly as many as that."""
    sent = bytearray(sent)
    for k in range(len(sent) // BLOCK):
        wrong = chance.choice((0, most, most, chance.randrange(most + 1)))
        for i in chance.sample(range(BLOCK), wrong):
            place = sent_at(BLOCK * k + i)
            if place < len(sent):
                sent[place] ^= chance.randrange(1, 256)
    return bytes(sent)


def with_burst(chance, sent, count):
    """Bytes of which so many in a row are others."""
    at = chance.randrange(max(1, len(sent) - count))
    other = bytes(byte ^ chance.randrange(1, 256) for byte in sent[at : at + count])
    return sent[:at] + other + sent[at + count :]


def to_read(chance, packets):
    """What is to be read, and whether its packets have to come back: the bytes of packets, whole or cut, damaged or not, or any bytes."""
    kind, sent = chance.random(), coded(packets)
    if kind < 0.15:
        return sent, True
    if kind < 0.5:
        most = chance.choice((1, 7, 8, 8, 9, 10, 12))
        return damaged(chance, sent, most), most <= 8
    if kind < 0.65:
        count = chance.choice((1, 95, 96, 97, 300))
        return with_burst(chance, sent, count), count <= 96
    if kind < 0.75:
        return sent[: chance.randrange(len(sent) + 1)], True
    if kind < 0.9:
        return sent[chance.choice((1, BLOCK, 8 * BLOCK, chance.randrange(4000))) :], False
    return chance.randbytes(chance.choice((0, 203, 204, 11 * BLOCK, 12 * BLOCK, chance.randrange(5000)))), False


def tried(words, given, made, line):
    """What a run does otherwise than the rules."""
    with tempfile.TemporaryDirectory() as folder:
        return differences([*words, "in", "out"], folder, {"in": given, "out": b"older"}, {"out": made}, line)


def code_wrongs(dtx, chance, packets):
    """What is wrong with the bytes of a stream, of which a packet may be refused."""
    stream = b"".join(packets) + chance.randbytes(chance.choice((0, 0, 1, 187)))
    if packets and chance.random() < 0.2:
        refused = chance.randrange(len(packets))
        sync = chance.choice((0x00, 0x46, 0xB8, 0xB8))
        stream = stream[: PACKET * refused] + bytes([sync]) + stream[PACKET * refused + 1 :]
        return tried([dtx, "dvb", "code"], stream, coded(packets[:refused]), f"packet {refused}")
    return tried([dtx, "dvb", "code"], stream, coded(packets), code_line(stream))


def read_wrongs(dtx, chance, packets, met):
    """What is wrong with the packets of what is read."""
    sent, comes_back = to_read(chance, packets)
    given = read(sent)
    made = b"".join(packet for packet, _, _ in given)
    if comes_back and (not all(good for _, _, good in given) or not b"".join(packets).startswith(made)):
        return ["the packets don't come back by the rules"]
    met["fixed"] += any(fixed for _, fixed, _ in given)
    met["flagged"] += not all(good for _, _, good in given)
    met["back"] += comes_back and len(given) > 0
    sent += chance.randbytes(chance.choice((0, 0, 0, 1, 203)) if len(sent) % BLOCK == 0 else 0)
    return tried([dtx, "dvb", "read"], sent, made, read_line(sent, given))


def cases(dtx, streams):
    """Random streams, and what is wrong with what the program makes of them; and what is wrong where none of them is one of a kind."""
    chance, met = random.Random(204), {"fixed": 0, "flagged": 0, "back": 0}
    for number in range(streams):
        count = number if number < 14 else chance.choice((19, 20, 24, 25, chance.randrange(41), 400 if number % 40 == 0 else 40))
        packets = [b"\x47" + chance.randbytes(PACKET - 1) for _ in range(count)]
        wrong = [f"code: {each}" for each in code_wrongs(dtx, chance, packets)]
        wrong += [f"read: {each}" for each in read_wrongs(dtx, chance, packets, met)]
        yield f"{count} packets", wrong
    for kind, number in met.items():
        if not number:
            yield "all streams", [f"none of {streams} is one of kind '{kind}'"]


def main(kind, source, target):
    with open(source, "rb") as file:
        given = file.read()
    if kind == "code":
        made, line = coded(packets_of(given)), code_line(given)
    else:
        packets = read(given)
        made, line = b"".join(packet for packet, _, _ in packets), read_line(given, packets)
    with open(target, "wb") as file:
        file.write(made)
    print(line)


if __name__ == "__main__":
    if sys.argv[1] in ("code", "read"):
        main(*sys.argv[1:])
    else:
        sys.exit(try_each("dvb", cases(sys.argv[1], int(sys.argv[2]))))

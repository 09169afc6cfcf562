#!/usr/bin/env python3
"""Tries `dtx excite` on random lists of packets, against the written rules computed anew for each packet over the whole list.

exciter.py DTX LISTS    names each list that differs, and ends with the line `exciter: N passed, M failed`
"""

import collections
import functools
import itertools
import random
import subprocess
import sys
import tempfile

from reference import FIELD, FRAME, PACKET, TWO_SITES, adapted, coded, is_placeholder, packets_of, read, try_each

ADDRESSES = (7, 9, 8)
DELAYS = (0, 1000, 4_999_990, 4_999_991, 5_000_025, 5_000_026)


def sequence(first, taps, count):
    """Bits of which each is the sum of those so far before it."""
    bits = list(first)
    while len(bits) < count:
        bits.append(sum(bits[-tap] for tap in taps) % 2)
    return bits[:count]


PN511 = sequence([0, 0, 0, 0, 0, 0, 0, 1, 0], (2, 3, 5, 6, 8, 9), 511)
PN63 = sequence([1, 1, 1, 0, 0, 1], (5, 6), 63)
MODE = [int(bit) for bit in "000011110000111101011010"]


def field_sync(second, last):
    middle = [1 - bit for bit in PN63] if second else PN63
    bits = [1, 0, 0, 1] + PN511 + PN63 + middle + PN63 + MODE + PN63 + PN63[:29]
    return [5 if bit else -5 for bit in bits] + last


def is_mark(packet):
    return packet[0] == 0xB8


def anchor(packets, i, before):
    """The anchor at packet i, from the one at the packet before it: where there was none, a mark is one; and one is lost where a mark is
    due, and neither this packet nor the one at the last due place is a mark."""
    if before is None:
        return i if is_mark(packets[i]) else None
    is_lost = (i - before) % FRAME == 0 and not is_mark(packets[i]) and not is_mark(packets[i - FRAME])
    return None if is_lost else before


@functools.cache
def coded_group(states, s, data):
    """The four data segments of a group at a place of its field, from those states and its 828 bytes, and the states behind it."""
    states = [[state >> 2, state >> 1 & 1, state & 1] for state in states]
    segments = [[5, -5, -5, 5] + [0] * 828 for _ in range(4)]
    for turn in range(276):
        i, h = turn // 69, turn // 4
        for p in range(12):
            coder = (p + 4 * ((s + i) % 3)) % 12
            byte = data[12 * h + (coder - 4 * ((s + 4 * h // 69) % 3)) % 12]
            pair = byte >> 6 - 2 * (turn % 4) & 3
            x2, x1 = pair >> 1, pair & 1
            q2, q1, q0 = states[coder]
            z = 4 * (x2 ^ q2) + 2 * x1 + q1
            states[coder] = [x2 ^ q2, x1 ^ q0, q1]
            segments[i][4 + 12 * (turn % 69) + p] = 2 * z - 7
    return segments, tuple(4 * q2 + 2 * q1 + q0 for q2, q1, q0 in states)


class Life:
    """What one exciter is given, and what it owes for each packet of it."""

    def __init__(self, address, delay):
        self.address, self.delay, self.packets = address, delay, []
        self.anchor, self.known = None, {}

    def order(self, a, g):
        """The fields of the order that the group at g is, or nothing."""
        key = ("order", a, g)
        if key not in self.known:
            reads = ((k, read(self.packets[k])) for k in range(g, g + 4))
            self.known[key] = next((fields for k, fields in reads if fields and fields["index"] == (k - a) % FRAME), None)
        return self.known[key]

    def orders(self, a, i0):
        """The places and the fields of the orders up to the group at i0 that have the number of pages of the latest one, from that one, which
        is in force, back."""
        told = [(g, self.order(a, g)) for g in range(i0, a + 51, -4)] if i0 >= a else []
        told = [(g, fields) for g, fields in told if fields]
        return list(itertools.takewhile(lambda each: each[1]["pages"] == told[0][1]["pages"], told))

    def offset(self, orders):
        """The offset of the entry in force of the address under such orders, or that it is unlisted, or its page not told."""
        pages = [fields["page"] for _, fields in orders]
        for number, (_, fields) in enumerate(orders):
            if self.address in fields["offsets"]:
                if fields["page"] not in pages[:number]:
                    return fields["offsets"][self.address]
                break
        return "unlisted" if len(set(pages)) == orders[0][1]["pages"] else "untold"

    def hold(self, orders):
        """For how long what is sent under such orders is held, or why it isn't sent."""
        offset = self.offset(orders)
        if isinstance(offset, str):
            return offset
        left = orders[0][1]["max_delay"] + offset - self.delay
        return left if left >= 0 else "late"

    def interleaved(self, a, n):
        """Byte n of the bytes that leave the interleaver, byte 0 being the first of the anchor's packet."""
        m = n - 208 * (n % 52)
        place = m // 207
        return coded(self.packets[a + place], place % FIELD)[m % 207]

    def group(self, a, order, i0):
        """The four data segments of the group at i0 under an order, and the states behind it."""
        g, fields = order
        key = ("group", a, g, i0)
        if key not in self.known:
            states = tuple(fields["states"]) if i0 == g else self.group(a, order, i0 - 4)[1]
            start = 207 * (i0 - a)
            data = bytes(self.interleaved(a, start + n) for n in range(828))
            self.known[key] = coded_group(states, (i0 - a) % FIELD, data)
        return self.known[key]

    def sent(self, a, i0):
        """The data segments that are sent of the group at i0 under the anchor."""
        orders = self.orders(a, i0)
        if not orders or isinstance(self.hold(orders), str):
            return []
        return self.group(a, orders[0], i0)[0]

    def take(self, packet):
        """The segments of one more packet, and its line in the log, where it has one."""
        before, i = self.anchor, len(self.packets)
        self.packets.append(packet)
        a = self.anchor = anchor(self.packets, i, before)
        if before is not None and a != before:
            return [], ("mute", "cadence")
        if a is None or (i - a) % 4 != 3:
            return [], None
        i0 = i - 3
        orders = self.orders(a, i0)
        if not orders:
            return [], None
        g, fields = orders[0]
        hold = self.hold(orders)
        if isinstance(hold, str):
            return [], ("mute", hold) if g == i0 and hold != "untold" else None
        segments, j = self.sent(a, i0), (i0 - a) % FRAME
        last = self.sent(a, i0 - 4)
        if (i0 - a) % FIELD == 0 and last:
            segments = [field_sync(j >= FIELD, last[-1][-12:])] + segments
        if g != i0:
            return segments, None
        total = fields["stamp"] + fields["max_delay"] + self.offset(orders)
        grains = (total * 1539 + (j + 1 if j < FIELD else j + 2) * 1_189_760) % 15_390_000_000
        return segments, ("preset", fields["frame"], j, grains // 1539, grains % 1539)


@functools.cache
def lived(packets, address, delay, segments=0):
    """The symbols and the lines of one life, before which its transmitter sent so many segments."""
    life, symbols, lines = Life(address, delay), bytearray(), []
    for packet in packets:
        given, line = life.take(packet)
        for segment in given:
            symbols += bytes(symbol & 255 for symbol in segment)
        if line and line[0] == "preset":
            lines.append(f"preset {segments + len(given) - 4} " + " ".join(map(str, line[1:])))
        elif line:
            lines.append(f"mute {segments} {line[1]}")
        segments += len(given)
    return bytes(symbols), lines


def excited(packets, address, delay):
    """The symbols, the log and the line of one life."""
    symbols, lines = lived(tuple(packets), address, delay)
    presets = sum(line.startswith("preset") for line in lines)
    numbers = f"segments {len(symbols) // 832} presets {presets} mutes {len(lines) - presets}"
    return symbols, "".join(each + "\n" for each in lines), f"packets {len(packets)} {numbers} loose 0\n"


def made_feed(chance, count, share=0.1, plan=TWO_SITES):
    """A feed of random packets under a plan, of which a share are operations packets."""
    stream = bytearray()
    for _ in range(count):
        if chance.random() < share:
            stream += b"\x47\x1f\xfa\x10" + bytes(184)
        else:
            stream += b"\x47\x00\x31\x10" + chance.randbytes(184)
    return packets_of(adapted(bytes(stream), plan))


def spoiled(chance, packet):
    """A packet with some bytes changed: few, about as many as can be put right, or many."""
    packet = bytearray(packet)
    for at in chance.sample(range(4, PACKET), chance.choice((1, 9, 10, 11, 12, 60))):
        packet[at] ^= chance.randrange(1, 256)
    return bytes(packet)


def with_sync(packet, sync):
    return bytes([sync]) + packet[1:]


def part(chance, feed, marked):
    """A part of a list: packets of the feed from a mark or from anywhere on, or foreign packets, and here and there one that is
    spoiled, left out, given twice, or a stray mark."""
    kind = 0 if marked else chance.random()
    if kind < 0.4:
        start = chance.choice((0, FRAME))
        packets = feed[start : start + chance.choice((50, 56, 60, 64, 70, 80, 80, 100, 120, 330))]
    elif kind < 0.75:
        start = chance.randrange(len(feed) - 60)
        packets = feed[start : start + chance.randrange(60)]
    else:
        packets = [b"\x47" + chance.randbytes(PACKET - 1) for _ in range(chance.randrange(8))]
    changed = []
    for packet in packets:
        luck = chance.random()
        if luck < 0.001:
            packet = with_sync(packet, 0xB8)
        elif luck < 0.003:
            packet = with_sync(packet, 0x00)
        elif luck < 0.0035:
            continue
        elif luck < 0.004:
            changed.append(packet)
        changed.append(packet)
    if chance.random() < 0.4:
        at = [k for k, packet in enumerate(changed) if is_placeholder(packet)]
        for k in at[: chance.choice((1, 4, 9))]:
            changed[k] = spoiled(chance, changed[k])
    return changed


def tried(dtx, folder, packets, address, delay):
    """The symbols and the log of one life, and what is wrong with what the program makes of it."""
    open(f"{folder}/list.ts", "wb").write(b"".join(packets))
    words = [dtx, "excite", "list.ts", str(address), str(delay), "out.sym", "out.log"]
    ran = subprocess.run(words, cwd=folder, capture_output=True, text=True)
    symbols, log, line = excited(packets, address, delay)
    same = ran.returncode == 0 and ran.stdout == line
    same = same and open(f"{folder}/out.sym", "rb").read() == symbols and open(f"{folder}/out.log").read() == log
    return symbols, log, [] if same else [f"printed {ran.stdout!r}, not {line!r}, or another file"]


def astray(chance, packets):
    """The packets with marks that are missing, that stand beside their place, there and beside it, or where none is due."""
    packets = list(packets)
    for k in [k for k, packet in enumerate(packets) if is_mark(packet)]:
        luck, beside = chance.random(), min(k + chance.choice((1, 2, 4, 311)), len(packets) - 1)
        if 0.3 < luck < 0.5:
            packets[beside] = with_sync(packets[beside], 0xB8)
        if luck < 0.45:
            packets[k] = with_sync(packets[k], chance.choice((0x47, 0x47, 0x00, 0xB9, 0x38)))
    for k in chance.sample(range(len(packets)), min(len(packets), chance.choice((0, 0, 0, 1, 6, 40)))):
        packets[k] = with_sync(packets[k], 0xB8)
    return packets


def with_losses(chance, packets):
    """The packets without some in a row, or with some that are given twice, and so with marks at other places from there on."""
    for _ in range(chance.choice((0, 0, 1, 1, 2))):
        at, count = chance.randrange(len(packets)), chance.choice((1, 4, 422, FRAME))
        first, last = (at, at + count) if chance.random() < 0.7 else (at + count, at)
        packets = packets[:first] + packets[last:]
    return packets


def frames(chance, feed):
    """Some frames of the feed on their way to an exciter: with losses, with marks astray, and behind an older lock, which is in step or
    isn't."""
    start = chance.choice((0, FRAME, chance.randrange(FRAME)))
    packets = feed[start : start + chance.randrange(1250, 2500)]
    if chance.random() < 0.5:
        packets = with_losses(chance, packets)
    if chance.random() < 0.6:
        packets = astray(chance, packets)
    older = chance.choice((0, 0, 0, 0, 0, FRAME, FRAME - 1, chance.randrange(1, 1300)))
    stray = [b"\x47" + chance.randbytes(PACKET - 1)] * older
    return [with_sync(packet, 0xB8) for packet in stray[:1]] + stray[1:] + packets


def marks_met(packets, log):
    """What a lock goes through in a list: a due mark that is missing, one that comes again, a stray mark, that it is lost, and that it is
    taken anew, and sent by."""
    met, a, is_lost = set(), None, False
    for i, packet in enumerate(packets):
        before, a = a, anchor(packets, i, a)
        if before is None:
            continue
        is_due = (i - before) % FRAME == 0
        if a is None:
            met.add("lost lock")
        elif is_due and not is_mark(packet):
            met.add("missing mark")
        elif is_due and not is_mark(packets[i - FRAME]):
            met.add("mark again")
        elif not is_due and is_mark(packet):
            met.add("stray mark")
    lines = [line.split() for line in log.splitlines()]
    mutes = [k for k, line in enumerate(lines) if line[-1] == "cadence"]
    if mutes and any(line[0] == "preset" for line in lines[: mutes[0]]):
        met.add("lost while sending")
    if mutes and any(line[0] == "preset" for line in lines[mutes[0] :]):
        met.add("sent anew")
    return met


def made_list(chance, feed):
    """A list of packets, an address and a delay. Some lists have frames; many of these aren't sent, since that takes long here: their
    orders are told by mutes."""
    is_long = chance.random() < 0.35
    if is_long:
        packets = frames(chance, feed)
    else:
        packets = part(chance, feed, False) if chance.random() < 0.5 else []
        packets += part(chance, feed, chance.random() < 0.9)
    if is_long and chance.random() < 0.35:
        return packets, *chance.choice(((ADDRESSES[2], DELAYS[0]), (ADDRESSES[0], DELAYS[-1])))
    return packets, chance.choice(ADDRESSES[:2] * 4 + ADDRESSES), chance.choice(DELAYS[:2] * 3 + DELAYS)


KINDS = ("lost lock", "missing mark", "mark again", "stray mark", "lost while sending", "sent anew")


def cases(dtx, lists):
    """Random lists, and what is wrong with what the program makes of them; and what is wrong where too few of them are sent, or something
    doesn't occur."""
    chance, met = random.Random(8), collections.Counter()
    feed = made_feed(chance, 3100)
    with tempfile.TemporaryDirectory() as folder:
        for _ in range(lists):
            packets, address, delay = made_list(chance, feed)
            symbols, log, wrong = tried(dtx, folder, packets, address, delay)
            met.update(marks_met(packets, log) | ({"sent"} if symbols else set()))
            yield f"{len(packets)} packets, address {address}, delay {delay}", wrong
    if met["sent"] < lists // 3:
        yield "all lists", [f"only {met['sent']} of {lists} are sent at all"]
    for kind in KINDS:
        if not met[kind]:
            yield f"lists with a '{kind}'", [f"there is none among {lists}"]


if __name__ == "__main__":
    sys.exit(try_each("exciter", cases(sys.argv[1], int(sys.argv[2]))))

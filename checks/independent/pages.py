#!/usr/bin/env python3
"""Tries `dtx excite` on random lists of packets with the pages of a network, against the written rules computed anew over the whole list.

pages.py DTX LISTS         names each list that differs, and ends with the line `pages: N passed, M failed`
pages.py feed PAGE.. OUT   writes 68 packets with a mark in front, where a group from packet 52 on begins with the order of each PAGE, which
                           is PAGE:PAGES:ADDRESS:OFFSET and has one entry
"""

import collections
import random
import sys
import tempfile

from exciter import spoiled, tried, with_sync
from reference import FRAME, MOST, entries_at, misread, parity_bytes, read, refusal, spelled, try_each

# How many transmitters the networks have: kind 1, then kind 2 with 2, 3, 4 and 30 pages.
SIZES = (2, 35, 36, 40, 68, 69, 130, 1020)
STRAY = b"\x47\x00\x31"


class Network:
    """The orders of a network whose pages are told in turn, with a mishap here and there."""

    def __init__(self, chance):
        self.chance, self.turn, self.asked = chance, chance.randrange(30), None
        self.grow()

    def grow(self):
        """Another number of transmitters; the one that is asked of may stay."""
        chance = self.chance
        count = chance.choice(SIZES)
        addresses = chance.sample(range(65536), count)
        if self.asked is not None and self.asked not in addresses and chance.random() < 0.7:
            addresses[chance.randrange(count)] = self.asked
        self.kind = 1 if count <= MOST[1] and chance.random() < 0.8 else 2
        most = MOST[self.kind]
        self.pages = [addresses[at : at + most] for at in range(0, count, most)]
        self.offsets = {address: chance.choice((0, -10, 25, chance.randrange(-32768, 32768))) for address in addresses}
        if self.asked not in addresses:
            self.asked = chance.choice(chance.choice(self.pages))

    def order(self, index):
        """The fields of the next operations packet."""
        chance, luck = self.chance, self.chance.random()
        if luck < 0.04:
            self.grow()
        elif luck < 0.85:
            self.turn += 1
        elif luck < 0.93:
            self.turn = chance.randrange(len(self.pages))
        page = self.turn % len(self.pages)
        shown = list(self.pages[page])
        if chance.random() < 0.1:
            shown = [address for address in shown if address != self.asked]
        elif chance.random() < 0.05 and len(shown) < MOST[self.kind] and self.asked not in shown:
            shown.append(self.asked)
        if chance.random() < 0.05:
            self.offsets[self.asked] = chance.randrange(-32768, 32768)
        return {
            "kind": self.kind,
            "states": [chance.randrange(8) for _ in range(12)],
            "stamp": chance.randrange(10_000_000),
            "max_delay": chance.choice((5_000_000, 5_000_000, 4_990_000)),
            "frame": chance.randrange(2**32),
            "index": index if chance.random() < 0.95 else chance.randrange(FRAME),
            "page": page,
            "pages": len(self.pages),
            "offsets": {address: self.offsets.get(address, 0) for address in shown},
        }


def broken(chance, packet):
    """An operations packet that breaks a rule or two, with the right parity bytes: most often one of pages and of the count."""
    data = bytearray(packet[4:168])
    at = entries_at(data[0])
    for _ in range(chance.choice((1, 1, 2))):
        rule = chance.choice(("Page", "Page", "Page", "Count", "Count", "Kind", "Pad", "Stamp", "Delay", "Index", "Fill"))
        if rule == "Page" and data[0] == 2:
            data[18:20] = bytes(chance.choice(((data[19], data[19]), (0, 0), (0, 31), (data[18], 255), (255, 30), (30, 30))))
        elif rule == "Count":
            count = MOST.get(data[0], 0) + 1
            data[at : at + 4 * count] = b"".join((1000 + k).to_bytes(2, "big") + b"\0\0" for k in range(count))
            data[at - 1] = count
        elif rule == "Kind":
            data[0] = chance.choice((0, 3, 255))
        elif rule == "Pad":
            data[5] |= chance.randrange(1, 16)
        elif rule in ("Stamp", "Delay"):
            place = 6 if rule == "Stamp" else 9
            data[place : place + 3] = chance.choice((10_000_000, 2**24 - 1)).to_bytes(3, "big")
        elif rule == "Index":
            data[16:18] = chance.choice((FRAME, 65535)).to_bytes(2, "big")
        else:
            data[163] = 1
    return packet[:4] + bytes(data) + parity_bytes(bytes(data))


def told(chance, packet):
    """What becomes of an operations packet on its way: it is lost, spoiled, or breaks a rule; most often it comes as it is."""
    luck = chance.random()
    if luck < 0.06:
        return with_sync(STRAY + packet[3:], packet[0])
    if luck < 0.12:
        return spoiled(chance, packet)
    if luck < 0.26:
        return broken(chance, packet)
    return packet


def made_list(chance):
    """Packets with a mark each frame and operations packets in some groups, an address whose entry they may have, and a delay."""
    network, packets, doubled = Network(chance), [], None
    count, share = chance.choice(((110, 0.8), (150, 0.6), (150, 0.9), (200, 0.5), (330, 0.3), (700, 0.2)))
    for k in range(count):
        head = 0xB8 if k % FRAME == 0 else 0x47
        packet = bytes([head]) + STRAY[1:] + b"\x10" + chance.randbytes(184)
        if k % 4 == 0:
            places = set(chance.sample(range(4), chance.choice((1, 1, 1, 2)))) if chance.random() < share else ()
        if k % 4 in places:
            packet = told(chance, spelled(head, k, network.order(k % FRAME)))
            doubled = packet if chance.random() < 0.1 else None
        elif doubled:
            # The last operations packet comes again, one place later, with the index of its first place.
            packet, doubled = with_sync(doubled, head), None
        if chance.random() < 0.0008:
            packet = with_sync(packet, 0xB8)
        packets.append(packet)
    luck = chance.random()
    if luck < 0.2:
        packets = [with_sync(packet, 0x47) for packet in packets[: chance.randrange(60)]] + packets
    elif luck < 0.45:
        # An older lock, which is in step, or is lost before the first mark or behind it.
        stray = STRAY + b"\x10" + bytes(184)
        count = chance.choice((FRAME - 1, 2 * FRAME - 1, *(chance.randrange(1160, 1300) for _ in range(4))))
        packets = [with_sync(stray, 0xB8)] + [stray] * count + packets
    asked = network.asked if chance.random() < 0.8 else chance.choice(list(network.offsets))
    asked = asked if chance.random() < 0.85 else chance.randrange(65536)
    limit = 5_000_000 + network.offsets.get(asked, 0)
    return packets, asked, chance.choice((0, 0, 0, 1000, limit, limit + 1, limit - 10_000))


def order_of(index, page, pages, address, offset):
    """The operations packet at a place of the first frame with one entry."""
    fields = {"kind": 2 if pages > 1 else 1, "states": [0] * 12, "stamp": 0, "max_delay": 5_000_000, "frame": 0, "index": index}
    return spelled(0x47, 0, {**fields, "page": page, "pages": pages, "offsets": {address: offset}})


def feed_of(orders):
    """The packets of a feed with such orders at the packets 52, 56 and so on."""
    packets = [with_sync(STRAY + b"\x10" + bytes(184), 0x47 if k else 0xB8) for k in range(52 + 4 * len(orders))]
    for i, order in enumerate(orders):
        packets[52 + 4 * i] = order_of(52 + 4 * i, *map(int, order.split(":")))
    return b"".join(packets)


def cases(dtx, lists):
    """Random lists, and what is wrong with what the program makes of them; and what is wrong where something doesn't occur."""
    chance, met = random.Random(34), collections.Counter()
    with tempfile.TemporaryDirectory() as folder:
        for _ in range(lists):
            packets, address, delay = made_list(chance)
            symbols, log, wrong = tried(dtx, folder, packets, address, delay)
            met["sent"] += len(symbols) > 0
            met.update({line.split()[2] for line in log.splitlines() if line.startswith("mute")})
            met.update({refusal(packet) for packet in packets})
            met["pages"] += len({fields["pages"] for fields in map(read, packets) if fields}) > 1
            yield f"{len(packets)} packets, address {address}, delay {delay}", wrong
    for kind in ("sent", "unlisted", "late", "cadence", "pages", "Page", "Count", "Uncorrectable"):
        if not met[kind]:
            yield f"lists with '{kind}'", [f"there is none among {lists}"]


if __name__ == "__main__":
    if sys.argv[1] == "feed":
        with open(sys.argv[-1], "wb") as out:
            out.write(feed_of(sys.argv[2:-1]))
        sys.exit()
    sys.exit(try_each("pages", cases(sys.argv[1], int(sys.argv[2]))))

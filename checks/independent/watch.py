#!/usr/bin/env python3
"""Tries `dtx watch` on random lists of packets, against the written rules over the whole list. What each operations packet of a feed says is
compared with the coders that an exciter would have there, and with the clock of the one before it.

watch.py DTX LISTS    names each list that differs, and ends with the line `watch: N passed, M failed`
watch.py watch IN OUT writes the events of the feed IN to OUT, and prints the line of `watch`
"""

import random
import sys
import tempfile

from exciter import Life, anchor, astray, made_feed, part, spoiled
from network import differences
from pages import broken
from reference import FRAME, PACKET, TWO_SITES, answer_file, is_placeholder, kinds_missing, packets_of, read, refusal, try_each

# The numbers of the refusals, in the order of the written rules; the one of pages came last.
REFUSALS = ("NotOps", "Uncorrectable", "Kind", "Pad", "Stamp", "Delay", "Index", "Count", "Twice", "Fill", "Page")


def is_right_clock(fields, before):
    """Whether the stamps of two operations packets are as far apart as their frames, and their maximum delay is the same."""
    frames = (fields["frame"] - before["frame"]) % 2**32
    whole, rest = divmod(frames * 744_789_760, 1539)
    gone = (fields["stamp"] - before["stamp"]) % 10_000_000
    return gone in (whole % 10_000_000, (whole + (rest > 0)) % 10_000_000) and fields["max_delay"] == before["max_delay"]


# A network whose clock starts at another time, and whose transmitters stand on two pages.
FORTY = {"start": 123_457, "max_delay": 4_000_000, "transmitter": [{"address": address, "offset": 0} for address in range(40)]}


class Watch:
    """What is told of a list of packets."""

    def __init__(self, packets):
        self.life = Life(0, 0)
        self.life.packets = packets
        self.lines = []
        a, told = None, None
        for i, packet in enumerate(packets):
            before, a = a, anchor(packets, i, a)
            if a != before:
                told = None
                self.lines.append(f"lock {i}" if before is None else f"lost {i}")
            if not is_placeholder(packet):
                continue
            fields = read(packet)
            if fields is None:
                self.lines.append(f"unread {i} {REFUSALS.index(refusal(packet)) + 1}")
            elif a is None or fields["index"] != (i - a) % FRAME:
                self.lines.append(f"stray {i} {fields['frame']} {fields['index']}")
            else:
                numbers = f"{fields['frame']} {fields['index']} {fields['stamp']} {fields['max_delay']} {len(fields['offsets'])}"
                self.lines.append(f"ops {i} {numbers} {self.states(a, i, fields)} {self.clock(fields, told)}")
                told = fields

    def clock(self, fields, told):
        return "first" if told is None else "right" if is_right_clock(fields, told) else "jump"

    def states(self, a, i, fields):
        """How the states of an operations packet stand to those that come of the latest order before its group."""
        i0 = i - (i - a) % 4
        if i0 < a + 52 or i0 + 4 > len(self.life.packets):
            return "early"
        g = next((g for g in range(i0 - 4, a + 51, -4) if self.life.order(a, g)), None)
        if g is None:
            return "first"
        order = g, self.life.order(a, g)
        for each in range(g, i0, 4):
            behind = self.life.group(a, order, each)[1]
        return "right" if list(behind) == list(fields["states"]) else "slip"


def watched(stream):
    """The events of a feed's packets, and the line."""
    packets = packets_of(stream)
    lines = Watch(packets).lines
    of_kind = {kind: sum(line.startswith(kind) for line in lines) for kind in ("ops", "unread", "stray")}
    slips, jumps = (sum(f" {word}" in line for line in lines) for word in ("slip", "jump"))
    line = f"packets {len(packets)} ops {of_kind['ops']} slips {slips} jumps {jumps} unread {of_kind['unread']}"
    return "".join(each + "\n" for each in lines).encode(), f"{line} stray {of_kind['stray']} loose {len(stream) % PACKET}"


# ---- Random feeds ----


def with_slips(chance, packets):
    """Packets of which some lost bytes between two operations packets, and some are lost or come twice."""
    made = []
    for packet in packets:
        luck = chance.random()
        if luck < 0.004:
            packet = spoiled(chance, packet)
        elif is_placeholder(packet) and chance.random() < 0.1:
            packet = broken(chance, packet)
        if luck < 0.9995:
            made.append(packet)
        if luck > 0.999:
            made.append(packet)
    return made


def random_list(chance, feeds):
    """Packets of a feed from anywhere on, which another one may follow, also at the place where the first one ends; with damage, and with marks
    astray."""
    feed, other = chance.sample(feeds, 2)
    start = chance.choice((0, FRAME, chance.randrange(900)))
    packets = feed[start : start + chance.choice((3, 56, 120, 500, 900, 1500))]
    luck, behind = chance.random(), start + len(packets)
    if luck < 0.3:
        packets = packets + part(chance, other, chance.random() < 0.5)
    elif luck < 0.6:
        packets = packets + other[behind : behind + 800]
    if chance.random() < 0.6:
        packets = with_slips(chance, packets)
    return astray(chance, packets) if chance.random() < 0.3 else packets


def cases(dtx, lists):
    """Random lists, and what is wrong with what the program makes of them; and what is wrong where one kind of event never comes."""
    chance = random.Random(22)
    feeds = [made_feed(chance, 2400, share, plan) for share, plan in ((0.003, TWO_SITES), (0.01, FORTY), (0.05, TWO_SITES))]
    met = dict.fromkeys(("lock", "lost", "unread", "stray", "early first", "first", "right right", "slip", "jump"), 0)
    for _ in range(lists):
        stream = b"".join(random_list(chance, feeds)) + bytes(chance.choice((0, 0, 187)))
        text, line = watched(stream)
        for kind in met:
            met[kind] += kind.encode() in text
        with tempfile.TemporaryDirectory() as folder:
            wrong = differences([dtx, "watch", "in.ts", "out.txt"], folder, {"in.ts": stream}, {"out.txt": text}, line)
        yield f"{len(stream)} bytes", wrong
    yield from kinds_missing(met, lists)


if __name__ == "__main__":
    if sys.argv[1] == "watch":
        sys.exit(answer_file(watched, *sys.argv[2:]))
    sys.exit(try_each("watch", cases(sys.argv[1], int(sys.argv[2]))))

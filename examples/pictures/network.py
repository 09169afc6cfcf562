#!/usr/bin/env python3
"""Draws what `dtx net PLAN` left in this folder: network.py PLAN NAME writes NAME.svg and NAME.png.

Each transmitter has a row, over the packets of the feed and the time that they take on the air. It shows:

  the plan's events, by their numbers, what it was given and what it sent
  its presets, its mutes with their cause, and its restarts
  by how many ticks of 100 ns its moments differ from those of the first transmitter that sent

The last row is that of the receiver, where the plan has one: the symbols that were damaged, bytes put right, and packets flagged. For that
row `dtx` is run, which must be found by the shell or beside the examples.
"""

import sys
import tomllib
from pathlib import Path

# Before matplotlib, since it says what to install where that is missing.
from drawing import Missing, figure, finish, first_of, packets_in, program, segments_to_packets, times_above

from matplotlib.patches import Patch

FRAME, SEGMENT, STEPS = 624, 832, 60
GRAINS = 1539
CAUSES = {"cadence": "x", "unlisted": "D", "late": "v"}


class Transmitter:
    """What a transmitter was given and did."""

    def __init__(self, address, events):
        self.address = address
        self.events = [(number, event) for number, event in enumerate(events) if event["to"] == address]
        self.given = [(event["from"], event["count"]) for _, event in self.events if event["do"] == "send"]
        self.sent, self.presets, self.mutes, self.restarts = [], [], [], []
        size = first_of(f"tx-{address}.sym", "dtx net").stat().st_size
        lines = [line.split() for line in first_of(f"tx-{address}.log", "dtx net").read_text().splitlines()]
        self.follow(lines, size // SEGMENT)

    def follow(self, lines, segments):
        """Takes in the log. A segment stands for a packet of the feed from the first preset on; before it a mute stands at what the plan
        gave first."""
        place, since = (self.given[0][0] if self.given else 0), None
        ends = [int(line[1]) for line in lines[1:]] + [segments]
        for (kind, at, *rest), end in zip(lines, ends):
            if kind == "preset":
                frame, packet, tick, grain = map(int, rest)
                place, since = FRAME * frame + packet, int(at)
                self.presets.append((place, tick * GRAINS + grain))
            elif kind == "mute":
                self.mutes.append((place, rest[0]))
            else:
                self.restarts.append(place)
            if since is not None and end > since:
                end_place = segments_to_packets(place, end - since)
                self.sent.append((place, end_place))
                place, since = end_place, end

    def behind(self, first):
        """The ticks by which the moments differ from those of the first transmitter, where both have one."""
        moments = dict(first.presets)
        gaps = {(moment - moments[place]) / GRAINS for place, moment in self.presets if place in moments}
        return ", ".join(f"{gap:+g}" for gap in sorted(gaps))


def received(plan):
    """What the receiver put right and flagged, step by step."""
    damage = plan["net"]["receive"].get("damage", [])
    text = "".join(f"[[damage]]\nat = {each['at']}\ncount = {each.get('count', 1)}\nput = {each['put']}\n" for each in damage)
    return program().steps_of(first_of(f"tx-{plan['net']['receive']['from']}.sym", "dtx net"), text, STEPS)


def places_of(packets, feed):
    """Where received packets stand in the feed. A packet that isn't there, as one that is flagged, stands behind the one before it. What is
    sent of a packet is all but its sync byte."""
    known = {packet[1:]: place for place, packet in reversed(list(enumerate(feed)))}
    places, expected = [], None
    for packet in packets:
        if expected is None or not (expected < len(feed) and feed[expected][1:] == packet[1:]):
            expected = known.get(packet[1:], expected)
        places.append(expected)
        expected = None if expected is None else expected + 1
    first = next((place - k for k, place in enumerate(places) if place is not None), 0)
    return [first + k if place is None else place for k, place in enumerate(places)]


def draw_events(axes, row, it):
    """The numbers of the events, where they begin, with their kind where that is no sending of the feed; a thin line is what was given."""
    for start, count in it.given:
        axes.plot((start, start + count), (row, row), color="0.6", linewidth=0.8, zorder=1)
    place, texts = 0, {}
    for number, event in it.events:
        place = place if event["do"] == "foreign" else event.get("from", place)
        texts.setdefault(place, []).append(str(number) if event["do"] == "send" else f"{number} {event['do']}")
        place += event.get("count", 0)
    for place, labels in texts.items():
        axes.text(place, row - 0.31, ", ".join(labels), fontsize=5, va="bottom", zorder=5)


def draw_transmitter(axes, row, it, first):
    """The row of a transmitter: a bar is what it sent."""
    draw_events(axes, row, it)
    for start, end in it.sent:
        axes.barh(row, end - start, left=start, height=0.55, color="0.82", edgecolor="0.35", linewidth=0.5, zorder=2)
    axes.plot([place for place, _ in it.presets], [row] * len(it.presets), "k|", markersize=7, markeredgewidth=1.5, zorder=3)
    for place, cause in it.mutes:
        name = f"mute-{it.address}-{place}-{cause}"
        axes.plot(place, row, CAUSES[cause], color="black", markerfacecolor="white", markersize=5, zorder=4, gid=name)
    axes.plot(it.restarts, [row] * len(it.restarts), ">", color="black", markersize=5, zorder=4)
    gaps = it.behind(first) if first else ""
    beside(axes, row, f"{gaps} ticks" if gaps else "sent nothing" if not it.sent else "")


def beside(axes, row, text):
    axes.text(1.01, row, text, transform=axes.get_yaxis_transform(), va="center", fontsize=7)


def draw_receiver(axes, row, plan, source):
    """The row of the receiver: stars are damage, a line the packets that came back, bars the bytes put right and, in black, the packets
    flagged."""
    steps, places = received(plan), places_of(packets_in("net.ts"), packets_in("net.feed"))
    most = max([step.fixed for step in steps] + [1])
    for step in (step for step in steps if step.first < step.last):
        start, width = places[step.first], step.last - step.first
        axes.plot((start, start + width), (row + 0.35, row + 0.35), color="0.6", linewidth=0.8, zorder=1)
        axes.barh(row + 0.35 - 0.3 * step.fixed / most, width, left=start, height=0.6 * step.fixed / most, color="0.75", zorder=2)
        if step.flagged:
            axes.barh(row + 0.43, width, left=start, height=0.12, color="black", zorder=3)
    first = source.sent[0][0] if source.sent else 0
    hurt = [segments_to_packets(first, each["at"] // SEGMENT) for each in plan["net"]["receive"].get("damage", [])]
    axes.plot(hurt, [row - 0.4] * len(hurt), "*", color="black", markersize=4, zorder=4)
    beside(axes, row, f"{sum(step.fixed for step in steps)} bytes put right,\n{sum(step.flagged for step in steps)} packets flagged")


def legend(axes):
    """What the signs are, which have no colours."""
    signs = [Patch(facecolor="0.82", edgecolor="0.35", label="sent"), *axes.plot([], [], color="0.6", linewidth=0.8, label="given")]
    signs += axes.plot([], [], "k|", markersize=7, markeredgewidth=1.5, label="preset")
    for cause, marker in CAUSES.items():
        signs += axes.plot([], [], marker, color="black", markerfacecolor="white", label=f"mute {cause}")
    signs += axes.plot([], [], ">", color="black", linestyle="", label="restart")
    signs += axes.plot([], [], "*", color="black", linestyle="", label="damage")
    axes.legend(handles=signs, loc="upper center", bbox_to_anchor=(0.5, -0.06 - 0.5 / max(4, axes.get_ylim()[0])), ncol=8, fontsize=7, frameon=False)


def main(plan_file, name):
    plan = tomllib.loads(first_of(plan_file, None).read_text())
    if "net" not in plan:
        raise Missing(f"{plan_file} has no table `net`")
    packets = first_of("net.feed", "dtx net").stat().st_size // 188
    transmitters = [Transmitter(each["address"], plan["net"]["event"]) for each in plan["transmitter"]]
    first = next((each for each in transmitters if each.presets), None)
    listened = plan["net"].get("receive")
    labels = [str(each.address) for each in transmitters] + ([f"received\nfrom {listened['from']}"] if listened else [])
    rows = len(labels)
    drawn, axes = figure(rows)
    for row, each in enumerate(transmitters):
        draw_transmitter(axes, row, each, first)
    if listened:
        source = next(each for each in transmitters if each.address == listened["from"])
        draw_receiver(axes, len(transmitters), plan, source)
    axes.set_yticks(range(rows), labels, fontsize=7)
    axes.set_ylim(rows - 0.4, -0.6)
    axes.set_ylabel("transmitter")
    times_above(axes, packets)
    legend(axes)
    axes.set_title(f"{Path(plan_file).name}: {len(transmitters)} transmitters over {packets} packets; small: the plan's events", fontsize=9)
    finish(drawn, name)


if __name__ == "__main__":
    try:
        if len(sys.argv) != 3:
            raise Missing("network.py PLAN NAME")
        main(*sys.argv[1:])
    except Missing as missing:
        sys.exit(f"network.py: {missing}")

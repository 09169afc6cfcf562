#!/usr/bin/env python3
"""Draws how symbols come back over a simulated channel: radio.py FIGURES TAPS NAME writes NAME.svg and NAME.png.

Above: how many packets come back of how much noise, of the figures of `bench/gnuradio/radio.sh noise`. Below: the taps
of `examples/radio/equalize.py`, in which an echo stands where it comes, and again where that one's own echo would.
"""

import sys

from drawing import Missing, figure, finish, first_of

STYLES = "k:^", "k-o", "k--s"


def draw_figures(axes, lines):
    """A line a way to receive, over decibels."""
    names, *rows = [line.split("\t") for line in lines]
    for column, (name, style) in enumerate(zip(names[1:], STYLES), 1):
        points = [(float(row[0]), int(row[column])) for row in rows]
        axes.plot(*zip(*points), style, markersize=4, linewidth=1, markerfacecolor="white", label=name)
    axes.set_xlabel("decibels of the data symbols over the noise")
    axes.set_ylabel("packets that come back")
    axes.legend(fontsize=7, frameon=False, loc="lower right")
    axes.grid(color="0.9", linewidth=0.5)


def draw_taps(axes, lines):
    """A stem for each tap."""
    late, weights = zip(*(map(float, line.split()) for line in lines))
    axes.vlines(late, 0, weights, color="black", linewidth=1)
    axes.plot(late, weights, "ko", markersize=2)
    axes.axhline(0, color="0.6", linewidth=0.5)
    axes.set_xlabel("symbols by which what is weighted comes earlier")
    axes.set_ylabel("weight of the tap")


def main(figures, taps, name):
    drawn, whole = figure(24)
    whole.remove()
    above, below = drawn.subplots(2, 1, gridspec_kw={"hspace": 0.3})
    try:
        draw_figures(above, first_of(figures, "bench/gnuradio/radio.sh noise").read_text().splitlines())
        draw_taps(below, first_of(taps, "examples/radio/try.sh").read_text().splitlines())
    except (ValueError, IndexError) as wrong:
        raise Missing(f"{figures} or {taps} is no table of them: {wrong}") from wrong
    finish(drawn, name)


if __name__ == "__main__":
    try:
        if len(sys.argv) != 4:
            raise Missing("radio.py FIGURES TAPS NAME")
        main(*sys.argv[1:])
    except Missing as missing:
        sys.exit(f"radio.py: {missing}")

#!/usr/bin/env python3
"""Draws how a symbol file is received: reception.py SYMBOLS NAME [FIGURES] writes NAME.svg and NAME.png.

Above: over the packets that come back, how many bytes were put right and how many packets flagged, by `receive` and by `mend`. Below, where
the figures of `bench/gnuradio/decibels.sh` are given: how many packets come back of how much noise.
"""

import sys

from drawing import Missing, figure, finish, first_of, program, times_above

STEPS = 60
FORMS = {"receive": ("0.75", ""), "mend": ("white", "////")}


def draw_steps(axes, found):
    """Bytes put right, as bars over packets, and packets flagged, as a line with marks."""
    for verb, (colour, hatch) in FORMS.items():
        for number, step in enumerate(found[verb]):
            label = f"bytes put right, {verb}" if number == 0 else None
            width = (step.last - step.first) * (1 if verb == "receive" else 0.5)
            axes.bar(step.first, step.fixed, width, align="edge", color=colour, hatch=hatch, edgecolor="0.3", linewidth=0.4, label=label)
    flags = axes.twinx()
    for verb, marker in (("receive", "x"), ("mend", "o")):
        places = [(step.first + step.last) / 2 for step in found[verb]]
        flags.plot(places, [step.flagged for step in found[verb]], marker, color="black", markerfacecolor="none", markersize=4, label=f"packets flagged, {verb}")
    flags.set_ylabel("packets flagged")
    flags.set_ylim(bottom=-0.5)
    axes.set_ylabel("bytes put right")
    handles = [each for axis in (axes, flags) for each in zip(*axis.get_legend_handles_labels())]
    axes.legend(*zip(*handles), fontsize=7, loc="upper right", frameon=False)


def draw_figures(axes, lines):
    """A line a way to receive, over decibels."""
    names, rows = lines[0].split("\t"), [line.split("\t") for line in lines[1:]]
    for column, (name, style) in enumerate(zip(names[1:], ("k-o", "k--s", "k:^", "k-.D", "k-x", "k--v")), 1):
        points = [(float(row[0]), float(row[column])) for row in rows if row[column] not in ("", "-")]
        axes.plot(*zip(*points), style, markersize=4, linewidth=1, markerfacecolor="white", label=name)
    axes.set_xlabel("decibels of the signal over the noise")
    axes.set_ylabel("packets that come back")
    axes.legend(fontsize=7, frameon=False)
    axes.grid(color="0.9", linewidth=0.5)


def main(symbols, name, figures=None):
    first_of(symbols, None)
    lines = first_of(figures, "bench/gnuradio/decibels.sh").read_text().splitlines() if figures else []
    found = {verb: program().steps_of(symbols, "", STEPS, verb) for verb in FORMS}
    drawn, axes = figure(14 if not lines else 28)
    if lines:
        drawn.clear()
        axes, below = drawn.subplots(2, 1, gridspec_kw={"hspace": 0.3})
        draw_figures(below, lines)
    draw_steps(axes, found)
    times_above(axes, found["receive"][-1].last)
    axes.set_xlabel("packets that come back")
    axes.set_title(symbols, fontsize=9)
    finish(drawn, name)


if __name__ == "__main__":
    try:
        if not 3 <= len(sys.argv) <= 4:
            raise Missing("reception.py SYMBOLS NAME [FIGURES]")
        main(*sys.argv[1:])
    except Missing as missing:
        sys.exit(f"reception.py: {missing}")

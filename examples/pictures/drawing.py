"""What the pictures share: the figure and its axes, and how far a symbol file is received."""

import collections
import os
import shutil
import subprocess
import tempfile
from pathlib import Path

FIELD, FRAME, SEGMENT = 312, 624, 832

# A second has 10,000,000 ticks, and a frame of two fields 744,789,760 of 1,539 grains.
FRAME_SECONDS = 744_789_760 / 1539 / 10_000_000


class Missing(Exception):
    """What is missing, in a line."""


try:
    import matplotlib

    matplotlib.use("Agg")
    import matplotlib.pyplot
except ImportError as missing:
    raise SystemExit("the pictures need matplotlib: Debian's package python3-matplotlib") from missing


def first_of(name, maker):
    """The path of an input that is there."""
    path = Path(name)
    if not path.is_file():
        raise Missing(f"{name} is missing" + (f": run `{maker}` first" if maker else ""))
    return path


def packets_in(name):
    """The packets of a file that `net` leaves."""
    stream = first_of(name, "dtx net").read_bytes()
    return [stream[at : at + 188] for at in range(0, len(stream) - 187, 188)]


def segments_to_packets(packet, segments):
    """The packet behind so many segments of which the first one is this packet's. A field sync stands before each later field."""
    left = FIELD - packet % FIELD
    if segments <= left:
        return packet + segments
    fields, rest = divmod(segments - left, FIELD + 1)
    return packet + left + FIELD * fields + max(rest - 1, 0)


Step = collections.namedtuple("Step", "first last fixed flagged")


class Program:
    """The program that is drawn, as it is found."""

    def __init__(self, path):
        self.path = path

    def told(self, *words):
        """The numbers of the line that the program prints."""
        ran = subprocess.run([self.path, *map(str, words)], capture_output=True, text=True)
        if ran.returncode:
            raise Missing(f"dtx {words[0]}: {ran.stdout.strip()}")
        words = ran.stdout.split()
        return dict(zip(words[::2], map(int, words[1::2])))

    def steps_of(self, symbols, damage, steps, verb="receive"):
        """What is received of symbols with damage, in so many steps. What is received of the first symbols of a file is the front of what
        is received of all, so a step is the difference of two front parts."""
        with tempfile.TemporaryDirectory() as folder:
            hurt, cut, packets = (Path(folder) / name for name in ("hurt", "cut", "packets"))
            (Path(folder) / "changes").write_text(damage)
            self.told("hurt", symbols, Path(folder) / "changes", hurt)
            whole, found, before = hurt.stat().st_size // SEGMENT, [], Step(0, 0, 0, 0)
            for step in range(1, steps + 1):
                with open(hurt, "rb") as source, open(cut, "wb") as target:
                    target.write(source.read(whole * step // steps * SEGMENT))
                try:
                    now = self.told(verb, cut, packets)
                except Missing:
                    continue
                found.append(Step(before.last, now["packets"], now["fixed"] - before.fixed, now["flagged"] - before.flagged))
                before = Step(0, now["packets"], now["fixed"], now["flagged"])
        if not found:
            raise Missing(f"{symbols} has no field sync that `dtx {verb}` finds")
        return found


def program():
    """`dtx` as the shell finds it, or that of the repository."""
    beside = Path(__file__).resolve().parents[2] / "dtx"
    path = shutil.which("dtx") or (str(beside) if os.access(beside, os.X_OK) else None)
    if not path:
        raise Missing("the program `dtx` is missing")
    return Program(path)


def figure(rows):
    """A page of so many rows."""
    matplotlib.rcParams.update({"font.size": 8, "svg.fonttype": "none", "svg.hashsalt": "dtx"})
    drawn = matplotlib.pyplot.figure(figsize=(8.3, min(11.2, 1.6 + 0.26 * max(rows, 4))))
    return drawn, drawn.add_subplot()


def clock(seconds):
    """Minutes, seconds and, where they count, parts of a second."""
    return f"{int(seconds // 60)}:{seconds % 60:05.2f}"


def times_above(axes, packets):
    """The axis of packets below, and that of the time which they take on the air above."""
    axes.set_xlim(0, max(packets, 1))
    axes.set_xlabel("packets of the feed")
    above = axes.secondary_xaxis("top", functions=(lambda k: k * FRAME_SECONDS / FRAME, lambda s: s * FRAME / FRAME_SECONDS))
    above.xaxis.set_major_formatter(lambda seconds, _: clock(max(seconds, 0)))
    above.tick_params(labelsize=7)
    for side in ("right", "left"):
        axes.spines[side].set_visible(False)
    axes.grid(axis="x", color="0.9", linewidth=0.5)
    axes.set_axisbelow(True)


def finish(drawn, name):
    """Writes both forms."""
    for form in ("svg", "png"):
        drawn.savefig(f"{name}.{form}", bbox_inches="tight", dpi=150, metadata={"Date": None} if form == "svg" else None)

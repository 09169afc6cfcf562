#!/usr/bin/env python3
"""Sends symbols through a channel: modulate.py [OPTION].. OUT --send SYMBOLS LOG WAY DECIBELS DEGREES [--send ..]..

OUT is complex baseband: complex64, the channel's middle at 0 Hz. There is a --send for each transmitter. SYMBOLS and LOG
are its symbol file and its log, as `dtx` writes them. WAY is by how many symbols its way to the receiver is longer, which
may be a part. DECIBELS is its level, and DEGREES the phase of its carrier. When it sends is told by its log, whose orders
have to be less than a second apart. All of them run on one symbol clock, that of the first one; moments of the same
orders tell how late another is.
"""

import math
import tempfile
from collections import namedtuple
from pathlib import Path

from vsb import CHANNEL, PILOT, POWER, ROLL_OFF, SEGMENT, SYMBOL_RATE, Wrong, done, numpy, words_of

from gnuradio import analog, blocks, filter, gr

GRAINS_OF_TICK, GRAINS_OF_SYMBOL = 1539, 1430
SECOND = 10_000_000 * GRAINS_OF_TICK
TAPS = 201  # of the pulse, one a symbol
PARTS = 64  # of a symbol: so finely a transmitter is delayed
PHASES = 32  # of the resampler

Preset = namedtuple("Preset", "order segment moment")
Way = namedtuple("Way", "levels late decibels degrees")


def presets(log):
    """The lines `preset` of a log: frame and packet, the segment, and the moment in grains, with seconds counted on."""
    found, second, before = [], 0, 0
    for line in Path(log).read_text().splitlines():
        if line.startswith("preset "):
            segment, frame, packet, tick, grain = map(int, line.split()[1:])
            moment = tick * GRAINS_OF_TICK + grain
            second += moment < before
            before = moment
            found.append(Preset((frame, packet), segment, second * SECOND + moment))
    if not found:
        raise Wrong(f"{log} has no preset")
    return found


def segments_late(own, clock):
    """By how many grains a transmitter sends later than the first one, and its segments' places on the clock's time."""
    moments = {preset.order: preset.moment for preset in clock}
    common = next((preset for preset in own if preset.order in moments), None)
    if not common:
        raise Wrong("two transmitters have no order in common")
    late = (common.moment - moments[common.order] + SECOND // 2) % SECOND - SECOND // 2
    shift = moments[common.order] - common.moment - clock[0].moment
    return late, [round((preset.moment + shift) / (SEGMENT * GRAINS_OF_SYMBOL)) for preset in own]


def placed(symbols, own, places, start):
    """The levels that are sent from a segment's place on, pilot and all, and 0 where nothing is sent."""
    levels = numpy.fromfile(symbols, dtype=numpy.int8).reshape(-1, SEGMENT) + numpy.float32(PILOT)
    ends = [preset.segment for preset in own[1:]] + [len(levels)]
    sent = numpy.zeros((places[-1] - start + ends[-1] - own[-1].segment, SEGMENT), dtype=numpy.float32)
    for place, preset, end in zip(places, own, ends):
        at = place - start
        sent[at : at + end - preset.segment] = levels[preset.segment : end]
    return sent


def lengthened(levels, segments):
    return numpy.pad(levels, ((0, segments - len(levels)), (0, 0)))


def ways_of(sends):
    """What comes on each transmitter's way, the least delay being 0."""
    logs = [presets(log) for _, log, *_ in sends]
    found = [segments_late(own, logs[0]) for own in logs]
    start = min(places[0] for _, places in found)
    ways = []
    for (symbols, _, *numbers), own, (late, places) in zip(sends, logs, found):
        way, decibels, degrees = map(float, numbers)
        ways.append(Way(placed(symbols, own, places, start), late / GRAINS_OF_SYMBOL + way, decibels, degrees))
    least, longest = min(way.late for way in ways), max(len(way.levels) for way in ways)
    # What is added ends with the first that ends.
    return [way._replace(late=way.late - least, levels=lengthened(way.levels, longest)) for way in ways]


def transmitter(graph, way, levels):
    """One sideband of the levels of a file. The pulse is taken a part of a symbol later where the delay has a part."""
    parts = round(way.late * PARTS)
    pulse = filter.firdes.root_raised_cosine(PARTS, PARTS * SYMBOL_RATE, SYMBOL_RATE / 2, ROLL_OFF, PARTS * TAPS)
    phase = math.radians(way.degrees)
    # The symbols' 0 Hz, at which the pilot is, goes as far below the channel's middle as half of the band is wide.
    steps = [
        blocks.file_source(gr.sizeof_float, str(levels), False),
        blocks.float_to_complex(),
        blocks.rotator_cc(-math.pi / 2),
        filter.fft_filter_ccc(1, pulse[-parts % PARTS :: PARTS]),
        blocks.multiply_const_cc(10 ** (way.decibels / 20) * complex(math.cos(phase), math.sin(phase))),
        blocks.delay(gr.sizeof_gr_complex, -(-parts // PARTS)),
    ]
    graph.connect(*steps)
    return steps[-1]


def resampler(rate, clock):
    """To the receiver's sampling rate, by its own clock."""
    room = min(rate, SYMBOL_RATE) / 2 - CHANNEL / 2
    taps = filter.firdes.low_pass(PHASES, PHASES * SYMBOL_RATE, CHANNEL / 2 + room / 2, room)
    return filter.pfb.arb_resampler_ccf(rate / SYMBOL_RATE * (1 + clock * 1e-6), taps, PHASES)


def noisy(graph, source, rate, decibels, seed):
    """Adds noise. One sideband has half of the symbols' power and of their bandwidth."""
    power = POWER / 2 * 10 ** (-decibels / 10) * rate / (SYMBOL_RATE / 2)
    total = blocks.add_cc()
    graph.connect(source, (total, 0))
    graph.connect(analog.fastnoise_source_c(analog.GR_GAUSSIAN, math.sqrt(power), seed, 2**20), (total, 1))
    return total


def words():
    reader = words_of(__doc__)
    reader.add_argument("out")
    reader.add_argument("--send", nargs=5, action="append", required=True, metavar=tuple("SLWDP"))
    reader.add_argument("--rate", type=float, default=8e6, help="samples a second, above the channel's 6e6")
    reader.add_argument("--noise", type=float, default=60, help="decibels below the data symbols of level 0")
    reader.add_argument("--carrier", type=float, default=0, help="by how many Hz the receiver's carrier is off")
    reader.add_argument("--clock", type=float, default=0, help="by how many millionths its sampling clock is fast")
    reader.add_argument("--seed", type=int, default=1, help="of the noise")
    return reader.parse_args()


def main():
    given = words()
    if given.rate <= CHANNEL:
        raise Wrong(f"the rate has to be above {CHANNEL:g}")
    try:
        ways = ways_of(given.send)
    except ValueError as wrong:
        raise Wrong(f"a word, a log or a symbol file can't be read: {wrong}") from wrong
    graph, air = gr.top_block(), blocks.add_cc()
    with tempfile.TemporaryDirectory() as room:
        for number, way in enumerate(ways):
            levels = Path(room) / str(number)
            way.levels.tofile(levels)
            print(f"transmitter {number}: {way.late:.2f} symbols late, {way.decibels:g} dB")
            graph.connect(transmitter(graph, way, levels), (air, number))
        sampled = resampler(given.rate, given.clock)
        graph.connect(air, blocks.rotator_cc(2 * math.pi * given.carrier / SYMBOL_RATE), sampled)
        received = noisy(graph, sampled, given.rate, given.noise, given.seed)
        graph.connect(received, blocks.file_sink(gr.sizeof_gr_complex, given.out))
        graph.run()


if __name__ == "__main__":
    done(main)

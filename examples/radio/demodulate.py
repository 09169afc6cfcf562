#!/usr/bin/env python3
"""Receives 8-VSB by GNU Radio's blocks, up to soft symbols: demodulate.py RATE IN OUT [PACKETS]

IN is complex baseband: complex64, the channel's middle at 0 Hz, RATE samples a second. OUT has the segments behind the
timing, field syncs too, one signed byte a symbol, some eight steps a unit, for equalize.py or `dtx level`, which find
the gain themselves. PACKETS is what GNU Radio's own equalizer and decoder make of the same segments.
"""

from vsb import CHANNEL, PILOT, SEGMENT, STEPS, SYMBOL_RATE, Wrong, done, numpy, words_of

from gnuradio import analog, blocks, dtv, filter, gr

OVERSAMPLED = 1.5
SAMPLED = SYMBOL_RATE * OVERSAMPLED
LEVEL = 4.0  # the mean of 1, 3, 5 and 7
START = 2**22  # samples, of which the carrier and the clock are measured


def peak(samples, rate, middle, reach):
    """The frequency of the greatest power no farther than `reach` from `middle`, between the lines of the transform."""
    power = numpy.abs(numpy.fft.fft(samples * numpy.hanning(len(samples))))
    frequencies = numpy.fft.fftfreq(len(samples), 1 / rate)
    power[numpy.abs(frequencies - middle) > reach] = 0
    best = int(numpy.argmax(power))
    left, here, right = power[best - 1], power[best], power[(best + 1) % len(power)]
    between = 0.5 * (left - right) / ((left - 2 * here + right) or 1)
    return frequencies[best] + between * rate / len(samples)


def symbol_rate_of(samples, rate, pilot):
    """By the receiver's clock. Half of it above the pilot both sidebands are left: the square of that has a line."""
    turned = samples * numpy.exp(-2j * numpy.pi * (pilot + SYMBOL_RATE / 2) / rate * numpy.arange(len(samples)))
    lines = numpy.fft.fft(turned)
    lines[numpy.abs(numpy.fft.fftfreq(len(samples), 1 / rate)) > 3e5] = 0
    return SYMBOL_RATE + peak(numpy.fft.ifft(lines) ** 2, rate, 0, SYMBOL_RATE * 1e-4)


def measured(name, rate):
    """Where the pilot is, and the rate by the transmitters' clock, from the file's start."""
    samples = numpy.fromfile(name, dtype=numpy.complex64, count=START)
    if len(samples) < START // 64:
        raise Wrong(f"{name} has fewer than {START // 64} samples")
    samples = samples[: 1 << (len(samples).bit_length() - 1)]
    pilot = peak(samples, rate, -SYMBOL_RATE / 4, 1e5)
    fast = SYMBOL_RATE / symbol_rate_of(samples, rate, pilot)
    print(f"pilot {pilot + SYMBOL_RATE / 4:+.1f} Hz, clock {1e6 * (fast - 1):+.2f} ppm")
    return pilot * fast, rate * fast


MEAN = 8192  # samples behind the receive filter, 0.5 ms


def filtered(name, rate, pilot):
    """The file behind the receive filter, and turned so that the pilot is near 0."""
    turned = blocks.rotator_cc(-2 * numpy.pi * pilot / SAMPLED)
    return blocks.file_source(gr.sizeof_gr_complex, name, False), dtv.atsc_rx_filter(rate, OVERSAMPLED), turned


def strength(name, rate, pilot):
    """The pilot's behind the filter, at the file's start."""
    graph, sink = gr.top_block(), blocks.vector_sink_c()
    source, *others = filtered(name, rate, pilot)
    graph.connect(source, blocks.head(gr.sizeof_gr_complex, START), *others, sink)
    graph.run()
    samples = numpy.array(sink.data())[MEAN:]
    return numpy.mean(numpy.abs(samples[: len(samples) // MEAN * MEAN].reshape(-1, MEAN).mean(axis=1)))


class Carrier(gr.hier_block2):
    """Turns the channel so that its pilot is real, by the phase of the pilot's mean, and gives the real part with a gain.
    The mean's size isn't used: it is off by some percent from one half millisecond to the next."""

    def __init__(self, gain):
        ends = gr.io_signature(1, 1, gr.sizeof_gr_complex), gr.io_signature(1, 1, gr.sizeof_float)
        gr.hier_block2.__init__(self, "carrier", *ends)
        mean = blocks.moving_average_cc(MEAN, 1 / MEAN, 2**16)
        product, quotient = blocks.multiply_conjugate_cc(), blocks.divide_ff()
        self.connect(self, blocks.delay(gr.sizeof_gr_complex, MEAN // 2), (product, 0))
        self.connect(self, mean, (product, 1))
        self.connect(product, blocks.complex_to_real(), (quotient, 0))
        self.connect(mean, blocks.complex_to_mag(), (quotient, 1))
        # The first mean is of nothing, and the gain control would long remember what is divided by it.
        start = blocks.skiphead(gr.sizeof_float, 2 * MEAN)
        self.connect(quotient, start, blocks.multiply_const_ff(gain), self)


def decoder(graph, timing, name):
    """GNU Radio's own equalizer and decoder, whose blocks hand on segments and, beside each, what it is."""
    steps = [dtv.atsc_fs_checker(), dtv.atsc_equalizer(), dtv.atsc_viterbi_decoder()]
    steps += [dtv.atsc_deinterleaver(), dtv.atsc_rs_decoder(), dtv.atsc_derandomizer()]
    graph.connect(timing, steps[0])
    for step, following in zip(steps, steps[1:]):
        graph.connect((step, 0), (following, 0))
        graph.connect((step, 1), (following, 1))
    graph.connect((steps[-1], 0), dtv.atsc_depad(), blocks.file_sink(gr.sizeof_char, name))


def main():
    reader = words_of(__doc__)
    reader.add_argument("rate", type=float)
    reader.add_argument("source")
    reader.add_argument("out")
    reader.add_argument("packets", nargs="?")
    given = reader.parse_args()
    if given.rate <= CHANNEL:
        raise Wrong(f"the rate has to be above {CHANNEL:g}")
    pilot, rate = measured(given.source, given.rate)
    graph, timing = gr.top_block(), dtv.atsc_sync(SAMPLED)
    graph.connect(
        *filtered(given.source, rate, pilot),
        Carrier(PILOT / strength(given.source, rate, pilot)),
        filter.dc_blocker_ff(4096),
        analog.agc_ff(1e-5, LEVEL),
        timing,
        blocks.vector_to_stream(gr.sizeof_float, SEGMENT),
        blocks.float_to_char(1, STEPS),
        blocks.file_sink(gr.sizeof_char, given.out),
    )
    if given.packets:
        decoder(graph, timing, given.packets)
    graph.run()


if __name__ == "__main__":
    done(main)

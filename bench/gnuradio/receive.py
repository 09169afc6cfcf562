#!/usr/bin/env python3
"""Receives symbols by GNU Radio's ATSC blocks and writes their packets: receive.py IN OUT [SCALE], where a symbol lies at so many steps a
unit. Its equalizer, which takes the field syncs out, is left out, since symbols are measured here and no channel: they are taken out by
their number. The blocks keep the last 65 packets of a file to themselves."""

import sys

from gnuradio import blocks, dtv, gr

SEGMENT = 832
FIELD_SEGMENTS = 313

source, sink = sys.argv[1:3]
scale = float(sys.argv[3]) if len(sys.argv) > 3 else 1.0
chain = gr.top_block()
checker = dtv.atsc_fs_checker()
last = dtv.atsc_derandomizer()
chain.connect(
    blocks.file_source(gr.sizeof_char, source, False),
    blocks.char_to_float(1, scale),
    blocks.stream_to_vector(gr.sizeof_float, SEGMENT),
    checker,
)
# Beside each segment goes its number. The checker begins with a field sync.
viterbi = dtv.atsc_viterbi_decoder()
for port in 0, 1:
    size = checker.output_signature().sizeof_stream_item(port)
    chain.connect((checker, port), blocks.keep_m_in_n(size, FIELD_SEGMENTS - 1, FIELD_SEGMENTS, 1), (viterbi, port))
steps = [viterbi, dtv.atsc_deinterleaver(), dtv.atsc_rs_decoder(), last]
for step, following in zip(steps, steps[1:]):
    chain.connect((step, 0), (following, 0))
    chain.connect((step, 1), (following, 1))
chain.connect(last, dtv.atsc_depad(), blocks.file_sink(gr.sizeof_char, sink))
chain.run()

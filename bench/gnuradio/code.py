#!/usr/bin/env python3
"""Codes a transport stream to symbols by GNU Radio's ATSC blocks: code.py IN OUT."""

import sys

from gnuradio import blocks, dtv, gr

SEGMENT = 832
# What stands before the symbols in an item of a segment that is padded.
HEADER = 4

source, sink = sys.argv[1:3]
syncs = dtv.atsc_field_sync_mux()
item = syncs.output_signature().sizeof_stream_item(0)
chain = gr.top_block()
chain.connect(
    blocks.file_source(gr.sizeof_char, source, False),
    dtv.atsc_pad(),
    dtv.atsc_randomizer(),
    dtv.atsc_rs_encoder(),
    dtv.atsc_interleaver(),
    dtv.atsc_trellis_encoder(),
    syncs,
    blocks.vector_to_stream(gr.sizeof_char, item),
    blocks.keep_m_in_n(gr.sizeof_char, SEGMENT, item, HEADER if item > SEGMENT else 0),
    blocks.file_sink(gr.sizeof_char, sink),
)
chain.run()

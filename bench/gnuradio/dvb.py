#!/usr/bin/env python3
"""Codes a transport stream by GNU Radio's blocks of DVB-T, whose outer coding is that of EN 300 429, or reads it back: dvb.py code IN OUT,
dvb.py read IN OUT. What it works at once it works whole: a last part of a piece is left out.
"""

import sys

from gnuradio import blocks, dtv, gr

# Groups of eight packets that are worked at once, and what a block of the interleaver works at once, in columns of twelve bytes.
GROUPS, COLUMNS = 1, 136
BRANCHES, STEP = 12, 17
# The code: bytes, their polynomial, the code that is shortened, how many wrong bytes it puts right, by how much it is shortened.
CODE = (2, 8, 0x11D, 255, 239, 8, 51, 8)

kind, source, sink = sys.argv[1:]
steps = {
    "code": lambda: (
        dtv.dvbt_energy_dispersal(GROUPS),
        dtv.dvbt_reed_solomon_enc(*CODE),
        dtv.dvbt_convolutional_interleaver(COLUMNS, BRANCHES, STEP),
    ),
    "read": lambda: (
        dtv.dvbt_convolutional_deinterleaver(COLUMNS, BRANCHES, STEP),
        dtv.dvbt_reed_solomon_dec(*CODE),
        dtv.dvbt_energy_descramble(8 * GROUPS),
    ),
}[kind]()
chain = gr.top_block()
chain.connect(blocks.file_source(gr.sizeof_char, source, False), *steps, blocks.file_sink(gr.sizeof_char, sink))
chain.run()

#!/usr/bin/env python3
"""Writes a run of full events of a charge board: make_run.py EVENTS > WORDS. Every 16th reading overflows."""
import struct
import sys

GEO, CRATE = 3, 5
# The readout order: the tags of the lower and of the upper half take turns.
TAGS = [tag for low in range(16) for tag in (low, low + 16)]


def event(number):
    yield GEO << 27 | 2 << 24 | CRATE << 16 | len(TAGS) << 8
    for slot, tag in enumerate(TAGS):
        over = (number + slot) % 16 == 0
        count = 4095 if over else (number * 37 + slot * 11) % 4096
        yield GEO << 27 | tag << 16 | over << 12 | count
    yield GEO << 27 | 4 << 24 | number


words = [word for number in range(int(sys.argv[1])) for word in event(number)]
sys.stdout.buffer.write(struct.pack(f'>{len(words)}I', *words))

#!/usr/bin/env python3
"""Adds up the losses of a listing of `stakebook` in their order, from the text alone, and compares the sum with the printed total bit for bit.

  target/bin/stakebook < FRAME | python3 tools/add_losses.py

Ends with 0 and says nothing where they are the same; else with 1 and a line. A refusal has no total, and so is told too."""
import struct
import sys

added, total = 0.0, None
for line in sys.stdin:
    word, *fields = line.split()
    if word == 'loss':
        added += struct.unpack('>d', bytes.fromhex(fields[1]))[0]
    elif word == 'total':
        total = fields[0]
bits = struct.pack('>d', added).hex().upper()
if bits != total:
    sys.exit(f'the losses add up to {bits}, and the total is {total}')

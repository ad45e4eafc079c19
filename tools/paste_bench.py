#!/usr/bin/env python3
"""paste_bench.py FILE: puts what `compare --bench` printed into docs/BENCHMARKS.md, in place of the run that stands there."""
import sys
from pathlib import Path

DOCUMENT = Path(__file__).resolve().parent.parent / 'docs' / 'BENCHMARKS.md'
START, END = '<!-- run -->\n', '<!-- end of the run -->\n'

run = Path(sys.argv[1]).read_text(encoding='utf-8').strip('\n')
if '### Lines' not in run or '### Aims' not in run:
    sys.exit(f'{sys.argv[1]} is not a whole run')
before, rest = DOCUMENT.read_text(encoding='utf-8').split(START)
_, after = rest.split(END)
DOCUMENT.write_text(f'{before}{START}{run}\n{END}{after}', encoding='utf-8')

#!/usr/bin/env python3
"""A built `ion` beside `yard`, by shape: what a short value costs, each kind alone. It shares nothing with `crates/`.

usage: bench/shapes.py ION [WORD ..]

Each shape is a line of Ion, 4,000 times; with WORDs those shapes alone that have one of them. `valgrind --tool=callgrind` counts the
instructions, less those of an empty run: a row has the shape, and for text shown, checked and converted and for the same values in
binary, shown and checked, the ratio (above 1: ion takes more) and the instructions a line. JOBS (2) in the environment is how many
run at a time. bench/beside.py says how yard is built. Streams of one kind of record hide what such a line shows: a path that is
declined for ever, or a token that leaves the fast path.
"""
import os
import subprocess
import sys
import tempfile
from concurrent.futures import ThreadPoolExecutor

from instructions import YARD, counted, lacking

LINES = 4000
SHAPES = r"""
1
-12345678901234567890123
1.25
"abc"
"é"
abc
'a b'
$0
2020-01-01
2020-01-01T12:30:00.123Z
true
null
null.int
{{aGVsbG8=}}
{{"clob"}}
a::1
a::{b:1,c:2}
a::b::{c:1}
[]
{}
()
[[[]]]
[1,2]
(a + b)
[a::{b:1}]
{a:1,b:x}
{a:b::c}
{a:b::{c:1}}
{a:null}
{a:true,b:false}
{a:$0}
{$4:1}
{a:"x\ny"}
{a:""}
{a:"日本"}
{a:'''long'''}
{a:'x y'}
{a:'null'}
{"a b":1}
{"a":1,"b":"c"}
{'':1}
{a:{{aGVsbG8=}}}
{a:1.0d3}
{a:-0d0}
{a:2020-01-01T12:30:00Z}
{a:12345678901234567890123}
{a:0x1F,b:0b11}
{a:1_000}
{a: 1, /* c */ b: 2} // x
{ a : [ 1 , 2 ] }
""".strip().split('\n')


def main(words):
    if not words:
        print(__doc__)
        return 2
    if lacking():
        print(f'skipped: {lacking()}')
        return 0
    ion = words[0]
    shapes = [shape for shape in SHAPES if not words[1:] or any(word in shape for word in words[1:])]
    with tempfile.TemporaryDirectory() as folder:
        empty = f'{folder}/empty.ion'
        open(empty, 'w').close()
        base, other_base = counted([ion, 'show', empty]), counted([YARD, 'show', empty])

        def cell(command, path):
            own, other = counted([ion, command, path]), counted([YARD, command, path])
            if own is None or other is None:
                return 'refused'
            return f'{(own - base) / (other - other_base):.2f} ({(own - base) * 1e6 / LINES:.0f})'

        def row(numbered):
            number, shape = numbered
            text, binary = f'{folder}/{number}.ion', f'{folder}/{number}.10n'
            with open(text, 'w', encoding='utf-8') as file:
                file.write(f'{shape}\n' * LINES)
            with open(binary, 'wb') as file:
                subprocess.run([ion, 'convert', text], stdout=file, check=False)
            works = (('show', text), ('check', text), ('convert', text), ('show', binary), ('check', binary))
            return shape, [cell(command, path) for command, path in works]

        print('| shape | show text | check text | convert text | show binary | check binary |\n|---|---|---|---|---|---|')
        with ThreadPoolExecutor(int(os.environ.get('JOBS', '2'))) as pool:
            for shape, cells in pool.map(row, enumerate(shapes)):
                print(f'| `{shape}` | {" | ".join(cells)} |', flush=True)
    return 0


if __name__ == '__main__':
    sys.exit(main(sys.argv[1:]))

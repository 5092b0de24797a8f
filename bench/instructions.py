#!/usr/bin/env python3
"""A built `ion` beside `yard`, in instructions, which no other work on the machine moves. It shares nothing with `crates/`.

usage: bench/instructions.py ION FOLDER [KIND ..]

FOLDER is made by `bench/streams.py FOLDER 2` (2 MB a file). `valgrind --tool=callgrind` counts, some eight minutes for all on
two cores; JOBS (2) in the environment is how many run at a time. A row in Markdown for each file and work: millions of
instructions of both, less those of an empty run, and the ratio (above 1: ion takes more); then the ratios' median and greatest,
without and with strings and blobs. Both are given --floats for the kind floats. bench/beside.py says how yard is built.
"""
import os
import re
import shutil
import statistics
import subprocess
import sys
from concurrent.futures import ThreadPoolExecutor

from streams import COMMANDS, OPTIONS

HERE = os.path.dirname(os.path.abspath(__file__))
YARD = os.environ.get('YARD') or os.path.join(HERE, 'yard', 'target', 'release', 'yard')
KINDS = ['log', 'ints', 'strings', 'blobs', 'deep', 'config', 'fields', 'nest']


def counted(words):
    """Millions of instructions of a run, or nothing where it fails."""
    ran = subprocess.run(['valgrind', '--tool=callgrind', '--callgrind-out-file=/dev/null', *words],
                         stdout=subprocess.DEVNULL, stderr=subprocess.PIPE, text=True)
    found = re.search(r'Collected : (\d+)', ran.stderr)
    return int(found.group(1)) / 1e6 if found and ran.returncode == 0 else None


def lacking():
    """What this wants and is not there, or nothing."""
    for name, there in (('valgrind', shutil.which('valgrind')), ('yard', os.access(YARD, os.X_OK))):
        if not there:
            return name
    return None


def tell(ratios):
    """The ratios' median and the greatest of them."""
    few = {work: ratio for work, ratio in ratios.items() if work[0] not in ('strings', 'blobs')}
    if few:
        worst = max(few, key=few.get)
        print(f'\nwithout strings and blobs: {len(few)} works, median {statistics.median(few.values()):.2f}, '
              f'greatest {few[worst]:.2f} ({" ".join(worst)})')
    if ratios:
        print(f'all: {len(ratios)} works, median {statistics.median(ratios.values()):.2f}, greatest {max(ratios.values()):.2f}')


def main(words):
    if len(words) < 2:
        print(__doc__)
        return 2
    if lacking():
        print(f'skipped: {lacking()}')
        return 0
    ion, folder, kinds = words[0], words[1], words[2:] or KINDS
    empty = os.path.join(folder, 'empty.ion')
    open(empty, 'w').close()
    base = counted([ion, 'show', empty]), counted([YARD, 'show', empty])
    works = [(kind, form, command) for kind in kinds for form in ('ion', '10n') for command in COMMANDS]

    def both(work):
        words = [*work[2].split(), *OPTIONS.get(work[0], []), f'{folder}/{work[0]}.{work[1]}']
        return work, counted([ion, *words]), counted([YARD, *words])

    ratios = {}
    print('| file | work | ion | yard | ratio |\n|---|---|---|---|---|')
    with ThreadPoolExecutor(int(os.environ.get('JOBS', '2'))) as pool:
        for (kind, form, command), own, other in pool.map(both, works):
            name = f'| {kind} | {command} {"text" if form == "ion" else "binary"}'
            if own is None or other is None:
                print(f'{name} | refused | | |')
                continue
            own, other = own - base[0], other - base[1]
            ratios[kind, form, command] = own / other
            print(f'{name} | {own:.0f} | {other:.0f} | {own / other:.2f} |', flush=True)
    tell(ratios)
    return 0


if __name__ == '__main__':
    sys.exit(main(sys.argv[1:]))

#!/usr/bin/env python3
"""How long a built `ion` takes over large catalogues. It shares nothing with `crates/`.

usage: bench/catalogues.py ION [RUNS]

Catalogues of 8,000, 16,000 and 30,000 tables of one text each, whose names stand in order, in reverse order or in none, and one
declaration of 32,000 imports over the last: `ion check --catalog TABLES STREAM`, the best of RUNS (5) in processor time (user
and system). A row in Markdown for each, with what twice the tables take.
"""
import os
import random
import subprocess
import sys
import tempfile

IMPORTS = 32_000
LARGEST = 30_000
ORDERS = ['in order', 'in reverse order', 'in no order']


def ranks(count, order):
    """The numbers of the tables as they come."""
    numbers = list(range(count))
    if order == 'in reverse order':
        numbers.reverse()
    elif order == 'in no order':
        random.Random('catalogue').shuffle(numbers)
    return numbers


def write_tables(path, count, order):
    with open(path, 'w') as file:
        for n in ranks(count, order):
            file.write('$ion_shared_symbol_table::{name:"table_%06d",version:1,symbols:["text_%d"]}\n' % (n, n))


def write_imports(path, count):
    """A declaration of imports, and the symbols of its first and last."""
    places = [n * 7_919 % LARGEST for n in range(count)]
    imports = ','.join('{name:"table_%06d",version:1,max_id:1}' % n for n in places)
    with open(path, 'w') as file:
        file.write('$ion_symbol_table::{imports:[%s]}\n$10 $%d\n' % (imports, 9 + count))
    return 'text_%d\ntext_%d\n' % (places[0], places[-1])


def timed(words, runs):
    """The least processor time of some runs, each of which has to be accepted."""
    best = None
    for _ in range(runs):
        child = subprocess.Popen(words, stdout=subprocess.DEVNULL)
        _, status, used = os.wait4(child.pid, 0)
        child.returncode = os.waitstatus_to_exitcode(status)
        if child.returncode:
            sys.exit(f'status {child.returncode}: {" ".join(words)}')
        took = used.ru_utime + used.ru_stime
        best = took if best is None else min(best, took)
    return best


def main(words):
    if not words:
        print(__doc__)
        return 2
    ion, runs = os.path.abspath(words[0]), int(words[1]) if len(words) > 1 else 5
    limit = ['--symbols', str(1 << 30)]
    with tempfile.TemporaryDirectory() as folder:
        tables, one, stream = f'{folder}/tables.ion', f'{folder}/one.ion', f'{folder}/imports.ion'
        with open(one, 'w') as file:
            file.write('1\n')
        wanted = write_imports(stream, IMPORTS)
        print('| tables | 8,000 | 16,000 | ratio | 30,000 | and 32,000 imports |\n|---|---|---|---|---|---|')
        for order in ORDERS:
            took = []
            for count in (8_000, 16_000, LARGEST):
                write_tables(tables, count, order)
                took.append(timed([ion, 'check', '--catalog', tables, *limit, one], runs))
            shown = subprocess.run([ion, 'show', '--catalog', tables, *limit, stream], stdout=subprocess.PIPE, check=True, text=True)
            if shown.stdout != wanted:
                sys.exit(f'the imports are shown as {shown.stdout!r}')
            both = timed([ion, 'check', '--catalog', tables, *limit, stream], runs)
            cells = [f'{1000 * t:.0f} ms' for t in took]
            print(f'| {order} | {cells[0]} | {cells[1]} | {took[1] / took[0]:.2f} | {cells[2]} | {1000 * both:.0f} ms |', flush=True)
    return 0


if __name__ == '__main__':
    sys.exit(main(sys.argv[1:]))

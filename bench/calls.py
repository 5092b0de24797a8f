#!/usr/bin/env python3
"""What a call of the library costs from C, Rust and Python, and a process of `ion` for the same, in processor time; and
how many bytes a call from C, whose room has 64 MB, asks of malloc at most.

usage: bench/calls.py [PROGRAM [LIBRARY]]

PROGRAM is crates/ion_tool/out/ion_tool where it is not named, LIBRARY the proved static library,
crates/cozgelt_c/out/libcozgelt_c.a where it is not named ((cd crates/cozgelt_c && rt lib) builds it). A message of 175 bytes, an
order, and 20 MB of such lines, each to binary, back to text, and checked; the best of nine batches of calls, of a call where it is
long. A process is started by Python, which is counted too, and reads and writes pipes. Then, from C, the message alone, and with
imports of two tables, where there is no catalogue, one of two tables, and one of 1,000: by its bytes, and by a handle that has loaded it.
It needs a C compiler and cargo. Prints two tables in Markdown.
"""
import os
import resource
import shutil
import subprocess
import sys
import tempfile
import time

ROOT = os.path.dirname(os.path.dirname(os.path.abspath(__file__)))
ORDER = ('{id: "order-%07d", time: 2026-11-26T09:15:%02dZ, customer: client_%05d, lines: '
         '[{sku: "A-%04d", count: %d, price: %d.%02d}, {sku: "B-770", count: 1, price: 0.99}], paid: true}\n')
BATCHES = 9


def order(n):
    return (ORDER % (n, n % 60, n * 7 % 100000, n * 13 % 10000, n % 9 + 1, n % 90 + 10, n % 100)).encode()


def best_of(call, rounds):
    """Processor time of this process for a call, in seconds."""
    best = None
    for _ in range(BATCHES):
        start = time.process_time()
        for _ in range(rounds):
            call()
        each = (time.process_time() - start) / rounds
        best = each if best is None else min(best, each)
    return best


def of_processes(words, data, rounds):
    """Processor time of a child and of this process for it, in seconds."""
    best = None
    for _ in range(BATCHES):
        start = [resource.getrusage(who) for who in (resource.RUSAGE_SELF, resource.RUSAGE_CHILDREN)]
        for _ in range(rounds):
            subprocess.run(words, input=data, stdout=subprocess.PIPE, check=True)
        end = [resource.getrusage(who) for who in (resource.RUSAGE_SELF, resource.RUSAGE_CHILDREN)]
        each = sum(b.ru_utime + b.ru_stime - a.ru_utime - a.ru_stime for a, b in zip(start, end)) / rounds
        best = each if best is None else min(best, each)
    return best


def build(library, folder):
    subprocess.run(['make', '-s', '-C', ROOT + '/bindings/c', f'OUT={folder}', f'PROVED={library}'], check=True)
    for name, more in (('calls_c', []), ('calls_memory', ['-DWRAPPED', '-Wl,--wrap=malloc,--wrap=realloc,--wrap=free'])):
        subprocess.run(['cc', '-O2', '-I', ROOT + '/bindings/c', *more, ROOT + '/bench/parts/calls.c', folder + '/libcozgelt.a', '-o',
                        f'{folder}/{name}'], check=True)
    os.makedirs(folder + '/rust/src')
    shutil.copy(ROOT + '/bench/parts/calls.rs', folder + '/rust/src/main.rs')
    with open(folder + '/rust/Cargo.toml', 'w') as file:
        file.write('[package]\nname = "calls"\nversion = "0.0.0"\nedition = "2021"\n\n[dependencies]\n'
                   f'cozgelt = {{ path = "{ROOT}/bindings/rust" }}\n')
    environment = dict(os.environ, COZGELT_LIB_DIR=folder, CARGO_TARGET_DIR=folder + '/target')
    subprocess.run(['cargo', 'build', '--quiet', '--offline', '--release'], cwd=folder + '/rust', env=environment, check=True)
    shutil.copy(ROOT + '/bindings/python/cozgelt.py', folder)


TABLE = '$ion_shared_symbol_table::{name: "com.example.table_%03d", version: 1, symbols: [%s]}\n'
NAMES = ('id', 'time', 'customer', 'lines', 'sku', 'count', 'price', 'paid')


def table(n):
    names = NAMES if n == 500 else ['name_%03d_%d' % (n, i) for i in range(8)]
    return (TABLE % (n, ', '.join(f'"{name}"' for name in names))).encode()


def time_of(folder, call, stream, rounds, *more):
    """Processor time of a call from C, and the most memory that it asks for."""
    with open(folder + '/stream', 'wb') as file:
        file.write(stream)
    found = []
    for name, times in (('calls_c', rounds), ('calls_memory', 1)):
        words = [f'{folder}/{name}', call, folder + '/stream', str(times), *more]
        found.append(float(subprocess.run(words, stdout=subprocess.PIPE, check=True).stdout))
    return found


def with_catalogs(folder):
    """Prints what calls cost that are given a catalogue."""
    imports = ', '.join('{name: "com.example.table_%03d", version: 1, max_id: 8}' % n for n in (500, 501))
    alone, importing = order(1), f'$ion_symbol_table::{{imports: [{imports}]}}\n'.encode() + order(1)
    print('\n| Stream | Catalogue | to_binary | to_text | check | memory |\n|---|---|---|---|---|---|')
    for stream, numbers, how in ((alone, (), 'bytes'), (alone, range(1000), 'bytes'), (alone, range(1000), 'loaded'),
                                 (importing, (500, 501), 'bytes'), (importing, range(1000), 'bytes'), (importing, range(1000), 'loaded')):
        with open(folder + '/tables', 'wb') as file:
            file.write(b''.join(map(table, numbers)))
        rounds = 200 if len(numbers) == 1000 and how == 'bytes' else 20000
        rows = [time_of(folder, call, stream, rounds, folder + '/tables', how) for call in ('to_binary', 'to_text', 'check')]
        what = f'{len(stream)} bytes' + (', with imports' if stream == importing else '')
        which = f'of {len(numbers):,} tables, ' + ('its bytes' if how == 'bytes' else 'loaded before') if numbers else 'none'
        cells = [what, which, *(shown(row[0]) for row in rows), f'{max(row[1] for row in rows) / 1e3:.1f} KB']
        print(f'| {" | ".join(cells)} |', flush=True)


def shown(seconds):
    return f'{seconds * 1e6:.1f} µs' if seconds < 0.01 else f'{seconds:.2f} s'


def main():
    program = os.path.abspath(sys.argv[1] if len(sys.argv) > 1 else ROOT + '/crates/ion_tool/out/ion_tool')
    library = os.path.abspath(sys.argv[2] if len(sys.argv) > 2 else ROOT + '/crates/cozgelt_c/out/libcozgelt_c.a')
    with tempfile.TemporaryDirectory() as folder:
        build(library, folder)
        sys.path.insert(0, folder)
        sys.dont_write_bytecode = True
        import cozgelt
        short, lines, n = order(1), [], 0
        size = 0
        while size < 20_000_000:
            lines.append(order(n))
            size += len(lines[-1])
            n += 1
        long = b''.join(lines)
        print('| Work | C | Rust | Python | a process | memory |\n|---|---|---|---|---|---|')
        for data, rounds, runs in ((short, 20000, 100), (long, 1, 1)):
            binary = cozgelt.to_binary(data)
            for call, command, given in (('to_binary', 'convert', data), ('to_text', 'show', binary), ('check', 'check', data)):
                with open(folder + '/stream', 'wb') as file:
                    file.write(given)
                cells = []
                for name in ('calls_c', 'target/release/calls'):
                    words = [f'{folder}/{name}', call, folder + '/stream', str(rounds)]
                    cells.append(float(subprocess.run(words, stdout=subprocess.PIPE, check=True).stdout))
                cells.append(best_of(lambda: getattr(cozgelt, call)(given), rounds // 4 or 1))
                cells.append(of_processes([program, command], given, runs))
                length = f'{len(given):,} bytes' if len(given) < 10000 else f'{len(given) / 1e6:.1f} MB'
                words = [folder + '/calls_memory', call, folder + '/stream', '1']
                peak = int(subprocess.run(words, stdout=subprocess.PIPE, check=True).stdout)
                memory = f'{peak / 1e3:.1f} KB' if peak < 1e6 else f'{peak / 1e6:.1f} MB'
                print(f'| {length}, {call} | ' + ' | '.join(map(shown, cells)) + f' | {memory} |', flush=True)
        with_catalogs(folder)


if __name__ == '__main__':
    main()

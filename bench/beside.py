#!/usr/bin/env python3
"""A built `ion` beside `yard`, a transcoder in plain Rust, in time. It shares nothing with `crates/`.

usage: bench/beside.py ION FOLDER [RUNS [KIND ..]]

FOLDER is made by `bench/streams.py FOLDER [MB]`. Each command on each file, in text and in binary, one run of each program in
turn, the best of RUNS (7) in processor time (user and system). A row in Markdown for each work: MB of input a second of both, the
ratio of times (above 1: ion is slower), and whether the outputs are the same by SHA-256. Work that `ion` refuses is left
out; both are given --floats for the kind floats. `(cd bench/yard && cargo build --release --offline)` builds yard, which needs
nothing but Rust's own library; YARD in the environment names another place of it.
"""
import hashlib
import os
import subprocess
import sys

from streams import COMMANDS, OPTIONS

HERE = os.path.dirname(os.path.abspath(__file__))
YARD = os.environ.get('YARD') or os.path.join(HERE, 'yard', 'target', 'release', 'yard')
KINDS = ['log', 'ints', 'strings', 'blobs', 'deep', 'config', 'fields', 'nest']


def timed(words):
    """Processor time and status of a run whose output goes nowhere."""
    with open('/dev/null', 'wb') as out:
        child = subprocess.Popen(words, stdout=out, stderr=out)
        _, status, used = os.wait4(child.pid, 0)
        child.returncode = os.waitstatus_to_exitcode(status)
    return used.ru_utime + used.ru_stime, child.returncode


def digest(words):
    """SHA-256 of what is written."""
    child = subprocess.Popen(words, stdout=subprocess.PIPE, stderr=subprocess.DEVNULL)
    told = hashlib.sha256()
    for piece in iter(lambda: child.stdout.read(1 << 20), b''):
        told.update(piece)
    child.wait()
    return told.hexdigest()


def works(folder, kinds):
    """The words of each command on a file, with the file, and what it is called in a row."""
    for kind in kinds:
        for form, name in (('ion', 'text'), ('10n', 'binary')):
            path = f'{folder}/{kind}.{form}'
            if os.path.exists(path):
                for command in COMMANDS:
                    yield [*command.split(), *OPTIONS.get(kind, []), path], path, f'| {kind} | {command} {name}'


def main(words):
    if len(words) < 2:
        print(__doc__)
        return 2
    ion, folder, runs, kinds = words[0], words[1], int(words[2]) if len(words) > 2 else 7, words[3:] or KINDS
    if not os.access(YARD, os.X_OK):
        print('skipped: yard (cd bench/yard && cargo build --release --offline)')
        return 0
    print('| file | work | ion MB/s | yard MB/s | ratio | same output |\n|---|---|---|---|---|---|')
    differ = 0
    for asked, path, row in works(folder, kinds):
        own, other = [ion, *asked], [YARD, *asked]
        if timed(own)[1] != 0:
            continue
        best = [1e9, 1e9]
        for _ in range(runs):
            best = [min(best[0], timed(own)[0]), min(best[1], timed(other)[0])]
        same = digest(own) == digest(other)
        differ += not same
        size = os.path.getsize(path) / 1e6
        ratio, verdict = best[0] / best[1], 'yes' if same else 'NO'
        print(f'{row} | {size / best[0]:.0f} | {size / best[1]:.0f} | {ratio:.2f} | {verdict} |', flush=True)
    return 1 if differ else 0


if __name__ == '__main__':
    sys.exit(main(sys.argv[1:]))

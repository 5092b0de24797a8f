#!/usr/bin/env python3
"""Blobs of a built `ion` beside the crate `base64` alone, in time and in instructions.

usage: bench/blobs.py ION FOLDER [RUNS]

FOLDER has blobs.ion and blobs.10n, made by `bench/streams.py FOLDER 20 blobs`. Alone is bench/parts/kit.rattle: as many characters,
4,096 of them in one call of `base64`, and one copy of the bytes; KIT in the environment names a built one. Decoded is the whole run
of `check` on the text. Encoded is `show` of the binary less `check` of it, which reads the same values and writes nothing. Both have
what the device takes. Processor time (user and system) is the best of RUNS (11), one run of each in turn; instructions are those
that `valgrind --tool=callgrind` counts, less those of an empty run. A row in Markdown for each: a character of both, and the ratio.
"""
import os
import re
import shutil
import subprocess
import sys
import tempfile

HERE = os.path.dirname(os.path.abspath(__file__))
ALONE = 4096 * 100_000
FEW = 4096 * 500


def timed(words, given):
    """Processor time of a run whose output goes nowhere."""
    with open('/dev/null', 'wb') as out:
        child = subprocess.Popen(words, stdin=subprocess.PIPE, stdout=out)
        child.stdin.write(given)
        child.stdin.close()
        _, status, used = os.wait4(child.pid, 0)
        child.returncode = os.waitstatus_to_exitcode(status)
    if child.returncode:
        sys.exit(f'{" ".join(words)} ended with {child.returncode}')
    return used.ru_utime + used.ru_stime


def counted(words, given=b''):
    """Instructions of a run."""
    ran = subprocess.run(['valgrind', '--tool=callgrind', '--callgrind-out-file=/dev/null', *words], input=given, capture_output=True)
    return int(re.search(rb'Collected : (\d+)', ran.stderr).group(1))


def row(kind, unit, mine, alone):
    print(f'| {kind} | {mine:.2f} {unit} | {alone:.2f} {unit} | {mine / alone:.2f} |')


def main(words):
    if len(words) < 2:
        print(__doc__)
        return 2
    ion, folder, runs = words[0], words[1], int(words[2]) if len(words) > 2 else 11
    text, binary = f'{folder}/blobs.ion', f'{folder}/blobs.10n'
    with open(text, 'rb') as file:
        chars = sum(len(line) - 5 for line in file)
    with tempfile.TemporaryDirectory() as work:
        kit, empty = os.environ.get('KIT') or f'{work}/kit', f'{work}/empty'
        open(empty, 'w').close()
        if not os.path.exists(kit):
            subprocess.run([f'{HERE}/parts/kit.sh', kit], cwd=os.path.dirname(HERE), check=True)
        works = {'check': ([ion, 'check', text], b''), 'show': ([ion, 'show', binary], b''), 'read': ([ion, 'check', binary], b''),
                 'd': ([kit], b'dl'), 'e': ([kit], b'el')}
        best = dict.fromkeys(works, 1e9)
        for _ in range(runs):
            for name, work_of in works.items():
                best[name] = min(best[name], timed(*work_of))
        print('| what | ion, a character | `base64` alone | ratio |\n|---|---|---|---|')
        row('decoded, time', 'ns', 1e9 * best['check'] / chars, 1e9 * best['d'] / ALONE)
        row('encoded, time', 'ns', 1e9 * (best['show'] - best['read']) / chars, 1e9 * best['e'] / ALONE)
        if shutil.which('valgrind'):
            none, idle = counted([ion, 'show', empty]), counted([kit], b'ns')
            read = counted(works['read'][0])
            row('decoded, instructions', '', (counted(works['check'][0]) - none) / chars, (counted([kit], b'ds') - idle) / FEW)
            row('encoded, instructions', '', (counted(works['show'][0]) - read) / chars, (counted([kit], b'es') - idle) / FEW)
    return 0


if __name__ == '__main__':
    sys.exit(main(sys.argv[1:]))

"""What the runners beside it share: the program, an input, an answer of the program, and the closing line."""
import concurrent.futures
import os
import subprocess
import sys

ROOT = os.path.dirname(os.path.dirname(os.path.abspath(__file__)))
BUILT = os.path.join(ROOT, 'crates', 'ion_tool', 'out', 'ion_tool')
SHOWN = 20
SECONDS = 300


def program_of(words):
    """The path of the program that is named, or of the built one."""
    program = os.path.abspath(words[0] if words else BUILT)
    if not os.access(program, os.X_OK):
        sys.exit(f'there is no program {program}: (cd crates/ion_tool && rt run) builds it')
    return program


def bytes_of(given):
    """The bytes of an input: hexadecimal, or a list of pieces of it, each with how often it stands there."""
    if isinstance(given, str):
        return bytes.fromhex(given)
    return b''.join(bytes.fromhex(piece) * times for piece, times in given)


def answer_of(program, words, given, folder=None):
    """Status and both streams, or nothing where no answer came in time."""
    try:
        got = subprocess.run([program] + words, input=given, cwd=folder, capture_output=True, timeout=SECONDS)
    except subprocess.TimeoutExpired:
        return None
    return got.returncode, got.stdout, got.stderr


def judge_all(rows, wrong_with, jobs=None):
    """Runs all rows, several at a time, prints what is wrong with them, a few rows at most, and the closing line.

    `wrong_with` has the lines to print on a row, none where it is right. The answer is the exit status."""
    failed = 0
    with concurrent.futures.ThreadPoolExecutor(jobs or os.cpu_count() or 1) as pool:
        for (name, _), wrong in zip(rows, pool.map(lambda row: wrong_with(row[1]), rows)):
            failed += bool(wrong)
            if wrong and failed <= SHOWN:
                print(f'FAILED {name}')
                for line in wrong:
                    print('  ' + line)
    print(f'{len(rows) - failed} passed, {failed} failed')
    return 1 if failed or not rows else 0

#!/usr/bin/env python3
"""Converts one long file on several processes of a machine.

A first pass checks the file, and finds checkpoints: places at which another process can begin, with the few bytes of
symbol tables that it needs there. Meanwhile workers convert from one to the next, and their outputs are joined in
order. Text is byte for byte what one process writes; binary shows the same values. OUT is written under another name
and renamed once it is whole. The status is 0, or 1 where the file is refused, which is said with reason and place.
"""
import argparse
import multiprocessing
import os
import shutil
import sys
import tempfile

import cozgelt


class Slice:
    """A reader of a file from one place to another, or to its end."""

    def __init__(self, file, start, end):
        self.file, self.left = file, sys.maxsize if end is None else end - start
        file.seek(start)

    def read(self, n):
        got = self.file.read(min(n, self.left))
        self.left -= len(got)
        return got


def slices(path, least, floats):
    """Where the file is cut, into slices of at least so many bytes: the place, what is kept there, and the next place."""
    place, kept = 0, b""
    with open(path, "rb", buffering=0) as file:
        parts = cozgelt.Parts(file, to="check", floats=floats)
        try:
            for _ in parts:
                if parts.place - place >= least:
                    yield place, kept, parts.place
                    place, kept = parts.place, parts.kept
        except ValueError:
            pass  # the worker that comes there says it
    yield place, kept, None


def convert(job):
    """Converts a slice to a file of its own; how many values it has, or what is wrong."""
    path, piece, words, (place, kept, end) = job
    with open(path, "rb", buffering=0) as file, open(piece, "wb") as out:
        try:
            return cozgelt.convert(Slice(file, place, end), out, words.to, kept=kept, place=place, floats=words.floats)
        except (cozgelt.Refused, cozgelt.InputLimit) as fault:
            return str(fault)


def main():
    words = argparse.ArgumentParser(description=__doc__, formatter_class=argparse.RawDescriptionHelpFormatter)
    words.add_argument("--to", choices=["text", "pretty", "binary", "rewrite"], default="text", help="rewrite: binary of binary too")
    words.add_argument("--floats", action="store_true")
    words.add_argument("--workers", type=int, default=os.cpu_count())
    words.add_argument("--least", type=int, default=1 << 24, help="bytes of a slice at least, 16 MiB by default")
    words.add_argument("file")
    words.add_argument("out")
    words = words.parse_args()
    beside = os.path.dirname(os.path.abspath(words.out))
    with tempfile.TemporaryDirectory(prefix=".convert_long.", dir=beside) as folder, open(f"{folder}/whole", "wb") as whole:
        cuts = enumerate(slices(words.file, words.least, words.floats))
        jobs = ((words.file, f"{folder}/{n}", words, cut) for n, cut in cuts)
        values = 0
        with multiprocessing.Pool(words.workers) as pool:
            for n, found in enumerate(pool.imap(convert, jobs)):
                if isinstance(found, str):
                    print(f"{words.file}: {found}", file=sys.stderr)
                    return 1
                values += found
                with open(f"{folder}/{n}", "rb") as piece:
                    shutil.copyfileobj(piece, whole, 1 << 20)
                os.remove(f"{folder}/{n}")
        whole.close()
        os.rename(f"{folder}/whole", words.out)
    print(f"{values} values", file=sys.stderr)
    return 0


if __name__ == "__main__":
    sys.exit(main())

#!/usr/bin/env python3
"""Builds the proved static library, crates/cozgelt_c/out/libcozgelt_c.a, over the crates that `rt ci` has just proved.

    packaging/build_library.py [--jobs N] [--since FILE]

Of `cozgelt_c` itself `rt ci` keeps only the verdict, so this proves that crate once more and compiles it, as `rt lib` does, which
would prove all the crates below again. Nothing here sees whether their sources have changed since: `.ci/run`, which calls it,
names a FILE that is as old as its `rt ci`, and what was built before that is not taken; nor is what `rt check` built over its kept
work. At most N parts of the check run at a time, and never more than four.

Where `rt ci` has left no library of a crate it says `skipped: PATH`. The last line is `N passed, M failed`.
"""
import argparse
import os
import re
import subprocess
import sys

ROOT = os.path.dirname(os.path.dirname(os.path.abspath(__file__)))
sys.dont_write_bytecode = True
sys.path.insert(0, os.path.join(ROOT, "bench"))
from unproved import below, crates_of, kit

CRATE = "cozgelt_c"
OUT = f"crates/{CRATE}/out/lib{CRATE}.a"
# The last line of a check. Over kept work it has one word more.
VERDICT = re.compile(r"^logic=proved (?!.*\bincremental=).*\n\Z", re.M)


def rlib_of(name):
    return f"crates/{name}/out/rlib/{name}.rlib"


def is_there(name, since):
    """Whether a crate's library is there, and not older than that. `rt ci` gives what it kept from earlier runs a second name, and
    puts what it had set aside back by moving a folder; of the two only the first changes the time that is compared."""
    path = rlib_of(name) + "/format"
    return os.path.isfile(path) and os.stat(path).st_ctime_ns >= since


def words_of(crates, home, jobs):
    """What `rattle build` is told, as `rt lib` tells it."""
    words = ["--crate-name", CRATE, f"crates/{CRATE}/src/lib.rt", "--crate-type", "staticlib", "--links", f"{CRATE}="]
    for name in ["std", *crates[CRATE]]:
        words += ["--extern", f"{name}={rlib_of(name) if name in crates else f'{home}/rlibs/{name}.rlib'}"]
    for folder in [f"{home}/rlibs", *(os.path.dirname(rlib_of(name)) for name in below(CRATE, crates))]:
        words += ["-L", f"dependency={folder}"]
    words += ["--antt-project", f"{home}/rattle/logic/antt-project.json", "--logic-built", f"{home}/logic_built"]
    return [*words, "--toolchain", f"{home}/toolchain", "--backend", "llvm", "--jobs", str(jobs), "-o", OUT]


def build(crates, home, jobs):
    """Whether the library is proved and built; else none is left."""
    os.makedirs(os.path.dirname(OUT), exist_ok=True)
    with open(OUT, "wb"):
        pass
    done = subprocess.run([f"{home}/bin/rattle", "build", *words_of(crates, home, jobs)], stdout=subprocess.PIPE,
                          stderr=subprocess.STDOUT, text=True, errors="replace")
    is_proved = done.returncode == 0 and VERDICT.search(done.stdout) and os.path.getsize(OUT) > 0
    print(done.stdout.rstrip("\n").split("\n")[-1] if is_proved else done.stdout)
    if not is_proved:
        os.remove(OUT)
    return bool(is_proved)


def main():
    words = argparse.ArgumentParser(usage=__doc__)
    words.add_argument("--jobs", type=int, default=1)
    words.add_argument("--since")
    given = words.parse_args()
    since = os.stat(given.since).st_mtime_ns if given.since else 0
    os.chdir(ROOT)
    crates = crates_of(".")
    lacking = [rlib_of(name) for name in below(CRATE, crates) if not is_there(name, since)]
    if lacking:
        print(f"skipped: {lacking[0]}\n0 passed, 0 failed")
        return 0
    is_proved = build(crates, kit(), max(1, min(4, given.jobs)))
    print(f"{OUT} is {'proved and built' if is_proved else 'NOT BUILT'}\n{int(is_proved)} passed, {int(not is_proved)} failed")
    return int(not is_proved)


if __name__ == "__main__":
    sys.exit(main())

"""Runs `bench/streams.py` where the yardstick is not built, and says what it makes and says then. `checks/run` calls it; its
last line is `N passed, M failed`.
"""
import os
import subprocess
import sys
import tempfile

from counts import Counts, files_of

STREAMS = os.path.join(os.path.dirname(os.path.dirname(os.path.abspath(__file__))), "bench", "streams.py")


def run(*words):
    """Status and standard error, where the yardstick is not built."""
    environment = dict(os.environ, YARD="/nowhere/yard")
    done = subprocess.run([sys.executable, STREAMS, *words], env=environment, capture_output=True, timeout=60)
    return done.returncode, done.stderr.decode()


def main():
    counts = Counts()
    with tempfile.TemporaryDirectory() as folder:
        for kinds in ([], ["log"], ["json", "log"]):
            status, said = run(folder, "0.001", *kinds)
            right = status == 1 and said.startswith("there is no program /nowhere/yard") and said.count("\n") == 1
            counts.judge(right, f"kinds {kinds}", (status, said))
        counts.judge(run(folder, "0.001", "jsno") == (1, "there is no kind jsno\n"), "no such kind")
        counts.judge(not files_of(folder), "nothing is made", files_of(folder))
        made = run(folder, "0.001", "json"), files_of(folder)
        counts.judge(made == ((0, ""), {"log.json"}), "json needs no yardstick", made)
    sys.exit(counts.close())


if __name__ == "__main__":
    main()

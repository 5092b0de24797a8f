#!/usr/bin/env bash
# What it costs to write one long value as binary; see docs/SPEED.md. Run from anywhere; the first word is the built program.
# Eight million small ints are converted from text: each a value of its own, all in one list of 16 MB, and in twenty lists round one another.
# The best of five runs of each, in time of the processor.
set -eu
ion=$(realpath "$1")
work=$(mktemp -d)
trap 'rm -rf "$work"' EXIT
python3 - "$work" <<'PY'
import sys
ints, work = '7 ' * 8_000_000, sys.argv[1]
members = '7,' * 8_000_000
for name, text in ('apart', ints), ('list', '[' + members + ']'), ('nested', '[' * 20 + members + ']' * 20):
    open(f'{work}/{name}', 'w').write(text)
PY
for name in apart list nested; do
    python3 - "$ion" "$work/$name" "$name" <<'PY'
import os, subprocess, sys
ion, path, name = sys.argv[1:]
best = None
for _ in range(5):
    before = os.times()
    with open(path) as text:
        out = subprocess.run([ion, 'convert'], stdin=text, stdout=subprocess.PIPE, check=True).stdout
    after = os.times()
    took = after.children_user + after.children_system - before.children_user - before.children_system
    best = took if best is None else min(best, took)
print(f'{name}: {len(out):,} bytes, {best * 1000:.0f} ms')
PY
done

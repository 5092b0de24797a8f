#!/usr/bin/env bash
# Measures the kit's base64 and its check of UTF-8 alone; see docs/SPEED.md. Run from the root of the repository. Given a path, it only
# builds the program and leaves it there, as bench/blobs.py asks.
set -eu
work=$(mktemp -d)
trap 'rm -rf "$work"' EXIT
mkdir -p "$work/crates/ion_speed/src"
cp bench/parts/kit.rattle "$work/crates/ion_speed/src/main.rt"
echo 'ion_speed: simdutf8 base64' > "$work/crates.txt"
git -C "$work" init -q
(cd "$work/crates/ion_speed" && echo ns | rt run > "$work/log" 2>&1) || { cat "$work/log"; exit 1; }
if [ $# -gt 0 ]; then cp "$work/crates/ion_speed/out/ion_speed" "$1"; exit 0; fi
python3 - "$work/crates/ion_speed/out/ion_speed" <<'PY'
import resource, subprocess, sys
for name, word in ('base64 decoded', b'dl'), ('base64 encoded', b'el'), ('UTF-8', b'ul'):
    best = 1e9
    for _ in range(5):
        begin = resource.getrusage(resource.RUSAGE_CHILDREN).ru_utime
        subprocess.run([sys.argv[1]], input=word, stdout=subprocess.DEVNULL, check=True)
        best = min(best, resource.getrusage(resource.RUSAGE_CHILDREN).ru_utime - begin)
    print('%s: %.0f MB/s' % (name, 409.6 / best))
PY

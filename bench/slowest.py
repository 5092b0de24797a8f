#!/usr/bin/env python3
"""Says which modules of a crate took longest to check.

usage: slowest.py CRATE [N]

CRATE is the folder of a crate in which `rt check --jobs 1` proved it from nothing. The check leaves a file for each module that
it has checked, one after the other, so the time between two of them is what the second took: `Proof` has the goals of a function
that have no answer, `Answers` those that have one, `Lts` follows its code. N modules are shown, 30 by default.

Between the last function and what is checked after it the check rests for some seconds, which fall to the first module there: the 7 s
of `specs.Standing` of `ion_value` are none of its own. How many steps a module took stands in its file under `records/`."""
import collections, glob, os, sys


def main(words):
    if not words:
        print(__doc__)
        return 2
    most = int(words[1]) if len(words) > 1 else 30
    files = []
    for name in glob.glob(f'{words[0]}/out/incremental/antt-checked*/*.oantt'):
        files.append((os.stat(name).st_mtime, os.path.basename(name).removesuffix('.oantt')))
    files.sort()
    took = [(now - before, name) for (before, _), (now, name) in zip(files, files[1:])]
    if not took:
        print('no checked module: run `rt check --jobs 1` in the crate first')
        return 1
    kinds = collections.Counter()
    for seconds, name in took:
        kinds[name.rsplit('.', 1)[-1]] += seconds
    print(f'{len(files)} modules in {files[-1][0] - files[0][0]:.0f} s:', ', '.join(f'{kind} {seconds:.0f}' for kind, seconds in kinds.most_common(5)))
    for seconds, name in sorted(took, reverse=True)[:most]:
        print(f'{seconds:.1f} s  {name}')
    return 0


sys.exit(main(sys.argv[1:]))

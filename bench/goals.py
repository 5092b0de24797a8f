#!/usr/bin/env python3
"""Says which goals of a crate took most steps to prove, and by which tactics.

usage: goals.py CRATE [N]

CRATE is the folder of a crate that `rt check` proved. The check keeps a record of each declaration, which says how many steps it took
and how many each tactic in it did. A goal of `Proof` has no answer: where `search` stands before another tactic, it found nothing, and
an answer with that tactic spares what it took. A record of an earlier check may stand among them, so a goal that has an answer now may
still be shown as one of `Proof`: begin from nothing where that matters. N goals are shown, 30 by default."""
import glob, os, re, sys

CALL = re.compile(r'\["(\w+)",\[[\d,]+\],(\d+)\]')
DECLARED = re.compile(
    r'"calls":(\[(?:[^\]]|\](?!,"goals"))*\]),"goals".{0,400}?"kind":"[a-z ]+","largest".{0,300}?"memory":\[[\d,]+\]'
    r'.{0,200}?"name":"([^"]+)".*?"steps":\[(\d+),(\d+),\d+\]', re.S)


def main(words):
    if not words:
        print(__doc__)
        return 2
    most = int(words[1]) if len(words) > 1 else 30
    rows = []
    for name in glob.glob(f'{words[0]}/out/incremental/antt-checked*/records/*-proofs.*.decls.oantt'):
        module = os.path.basename(name).removesuffix('.decls.oantt').split('-proofs.', 1)[1]
        if module.rsplit('.', 1)[-1] in ('Proof', 'Answers'):
            with open(name, 'rb') as it:
                text = it.read().decode('utf-8', 'ignore')
            for calls, goal, one, two in DECLARED.findall(text):
                calls = [(tactic, int(steps)) for tactic, steps in CALL.findall(calls) if tactic != 'first_of']
                rows.append((int(one) + int(two), module, goal, [it for it in calls if it[1] > 20000]))
    if not rows:
        print('no records: run `rt check` in the crate first')
        return 1
    print(f'{len(rows)} declarations, {sum(row[0] for row in rows) / 1e6:.0f} million steps')
    for steps, module, goal, calls in sorted(rows, reverse=True)[:most]:
        print(f'{steps / 1000:.0f} thousand  {module} {goal}', ', '.join(f'{tactic} {it / 1000:.0f}' for tactic, it in calls))
    return 0


sys.exit(main(sys.argv[1:]))

#!/usr/bin/env python3
"""Checks functions of one crate over the contracts of the crates below it, none of which has to be proved first.

usage: bench/alone.py [--keep FOLDER] CRATE PATH [PATH ..]

PATH is a function, module or type, as `ion_transcode::run::run_with`. In a copy of `crates/`, in FOLDER if it is named, the crates
below CRATE get `unreachable!()` for bodies, and `rattle check --only PATH` runs over it: one to six minutes where nothing was ever
proved on this machine, for half an hour or more of `rt check --only`, which proves what is below first. What the functions of the
copies rest on is not proved, so a verdict is for whoever writes a proof; `rt ci` decides. It prints what the check says of CRATE
alone. JOBS (1) in the environment is how many functions are proved at a time.
"""
import argparse
import os
import re
import shutil
import subprocess
import sys
import tempfile

from unproved import below, crates_of, kit

ROOT = os.path.dirname(os.path.dirname(os.path.abspath(__file__)))
FUNCTION = re.compile(r'^[ \t]*(?:pub(?:\([^)]*\))? )?(?:const )?(?:unsafe )?(?:extern "C" )?fn \w+', re.M)
CLAUSE = re.compile(r'\b(?:requires|ensures|ghost|invariant)\b[^{}]*$')
PROVED = 'proved, if what it calls below is'
LITERAL = re.compile(r"""//[^\n]*|"(?:\\.|[^"\\])*"|'(?:\\[^']*|[^\\'])'""")


def end_of(text, at, opening, closing, is_code=True):
    """Where the brackets end that begin at a place. In code literals and comments have none; in a clause there is neither."""
    depth = 0
    while True:
        literal = LITERAL.match(text, at) if is_code else None
        if literal:
            at = literal.end()
            continue
        depth += (text[at] == opening) - (text[at] == closing)
        at += 1
        if depth == 0:
            return at


def body_of(text, at):
    """Where the body begins of the function whose name ends at a place, or nothing where it has none."""
    if text[at] == '<':
        at = end_of(text.replace('->', '  '), at, '<', '>')
    at = last = end_of(text, text.index('(', at), '(', ')')
    while True:
        if text.startswith('//', at):
            at = text.index('\n', at)
        elif text[at] == '[':
            at = text.index(']', at)
        elif text[at] == ';':
            return None
        elif text[at] == '{':
            if not CLAUSE.search(text[last:at]):
                return at
            at = last = end_of(text, at, '{', '}', is_code=False)
            continue
        at += 1


def without_bodies(text):
    """A file of source with `unreachable!()` for each function's body."""
    made, at = [], 0
    while function := FUNCTION.search(text, at):
        body = body_of(text, function.end())
        made.append(text[at:body or function.end()])
        at = function.end()
        if body:
            made.append('{ unreachable!() }')
            at = end_of(text, body, '{', '}')
    return ''.join(made) + text[at:]


def copy_of(crate, crates, folder):
    """Copies a crate, and without bodies those below it."""
    for name in below(crate, crates) + [crate]:
        to = f'{folder}/{name}'
        shutil.copytree(f'{ROOT}/crates/{name}', to, ignore=shutil.ignore_patterns('out', 'must-fail'))
        for where, _, files in os.walk(f'{to}/src') if name != crate else ():
            for file in files:
                with open(f'{where}/{file}', encoding='utf-8') as source:
                    text = source.read()
                with open(f'{where}/{file}', 'w', encoding='utf-8') as source:
                    source.write(without_bodies(text))


def words_for(crate, crates, folder, paths):
    """The command line of the check."""
    home = kit()
    root = next(path for path in (f'{folder}/{crate}/src/{name}.rt' for name in ('main', 'lib')) if os.path.exists(path))
    words, of_kit = [f'{home}/bin/rattle', 'check', '--crate-name', crate, root], ['std']
    for name in below(crate, crates) + [crate]:
        own = [it for it in crates[name] if it not in crates]
        of_kit += [it for it in own if it not in of_kit]
        if name != crate:
            uses = ','.join(dict.fromkeys(['core', 'std'] + own + below(name, crates)))
            words += ['--lib', f'{name}:{uses}={folder}/{name}/src/lib.rt']
    words += [it for name in of_kit for it in ('--extern', f'{name}={home}/rlibs/{name}.rlib')]
    words += ['-L', f'dependency={home}/rlibs', '--antt-project', f'{home}/rattle/logic/antt-project.json', '--logic-built',
              f'{home}/logic_built', '--links', f'{crate}=', '--jobs', os.environ.get('JOBS', '1')]
    return words + [it for path in paths for it in ('--only', path)]


def said_of(crate, others, folder, lines):
    """What the check says of the crate: no line on one below, nor what stands after such a line until the next on something."""
    made, is_own = [], False
    of_other = re.compile(rf'(?:{re.escape(folder)}/|\w+ )(?:{"|".join(others)})(?:/|::)')
    rests_below = re.compile(rf'no proof: it calls `(?:{"|".join(others)})::[^`]*`, which is not proved$')
    for line in lines:
        if re.match(r'/|(?:fn|struct|enum|impl) ', line):
            is_own = not of_other.match(line)
        elif re.match(r'(?:by-macro|statements|logic|only)\b', line):
            is_own = False
        if is_own:
            made.append(rests_below.sub(PROVED, line).replace(f'{folder}/', f'{ROOT}/crates/'))
    return made


def main():
    parser = argparse.ArgumentParser(usage='%(prog)s [--keep FOLDER] CRATE PATH [PATH ..]')
    parser.add_argument('--keep')
    parser.add_argument('crate')
    parser.add_argument('paths', nargs='+')
    given = parser.parse_args()
    crates = crates_of(ROOT)
    with tempfile.TemporaryDirectory() as scratch:
        folder = given.keep or f'{scratch}/crates'
        shutil.rmtree(folder, ignore_errors=True)
        copy_of(given.crate, crates, folder)
        words = words_for(given.crate, crates, folder, given.paths)
        ran = subprocess.run(words, stdout=subprocess.PIPE, stderr=subprocess.STDOUT, text=True, check=False)
    lines = said_of(given.crate, below(given.crate, crates), folder, ran.stdout.splitlines())
    print('\n'.join(lines))
    return not lines or any(not line.endswith((': proved', PROVED)) for line in lines if line.startswith('fn '))


if __name__ == '__main__':
    sys.exit(main())

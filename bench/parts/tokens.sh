#!/usr/bin/env bash
# Compares ion_text_in's calls for tokens with a program in plain Rust; see docs/SPEED.md. Run from the root of the repository.
# The first word is that program: run with the word `sum`, it reads Ion text from standard input and writes the sum that
# bench/parts/tokens.rattle writes. There is none in the repository: `-` measures ion_text_in alone.
# A folder as the second word is where the built program and the streams are left. Further words are the kinds to measure.
# CPU=x86-64-v3 in the environment builds for processors with AVX2.
set -eu
plain=-
[ "$1" = - ] || plain=$(realpath "$1")
if [ $# -gt 1 ]; then
    mkdir -p "$2"
    work=$(realpath "$2")
    shift 2
else
    work=$(mktemp -d)
    trap 'rm -rf "$work"' EXIT
    shift 1
fi
crate="$work/repository/crates/ion_speed"
ion="$crate/out/ion_speed"
if [ ! -x "$ion" ]; then
    mkdir -p "$crate/src" "$crate/proofs/sum"
    cp -r crates/ion_meter crates/ion_value crates/ion_text_in "$work/repository/crates/"
    # The calls for tokens are private: they are opened in the copy.
    sed -i 's/pub(crate)/pub/; s/^mod /pub mod /' "$work"/repository/crates/ion_text_in/src/*.rt
    cp bench/parts/tokens.rattle "$crate/src/main.rt"
    cat > "$crate/proofs/sum/Invariants.antt" <<'ANTT'
use Rattle.std.proofs.Common.{◌≡◌, ◌≤◌, ◌^◌, ◌+◌, length}
use Rattle.ion_meter.specs.Sources.{Stands}
use Rattle.ion_speed.proofs.sum.Given as goal

abbrev pub invariant-tokens : goal.invariant-tokens
invariant-tokens g l = record {
  stands : Stands l.source;
  held : l.meter.held ≡ l.fn.meter.held + length l.text;
  share : length l.text ≤ l.limits.scalar;
  refused : l.meter.refused ≡ l.fn.meter.refused;
}
ANTT
    { grep -E '^(ion_meter|ion_value|ion_text_in):' crates.txt; echo 'ion_speed: ion_meter ion_value ion_text_in'; } > "$work/repository/crates.txt"
    (cd "$crate" && rt run ${CPU:+--cpu="$CPU"} < /dev/null > "$work/log" 2>&1) || true
    [ -x "$ion" ] || { cat "$work/log"; exit 1; }
fi
[ -f "$work/lines" ] || python3 - "$work" <<'PY'
import random, sys, base64
random.seed(1)
work, size = sys.argv[1], 40_000_000
WORDS = 'request served from cache after upstream timeout connection reset by peer user session expired while loading profile payment accepted order shipped queue depth above threshold retrying in background'.split()

def word(least, most):
    return ''.join(random.choice('abcdefghijklmnopqrstuvwxyz') for _ in range(random.randrange(least, most)))

def blanks():
    kind = random.random()
    if kind < 0.4:
        return '// ' + ' '.join(random.choices(WORDS, k=random.randrange(3, 12))) + '\n'
    if kind < 0.6:
        return '/* ' + ' '.join(random.choices(WORDS, k=random.randrange(3, 20))) + ' */'
    return ' ' * random.randrange(1, 40) + random.choice(['\n', '\t', '\r\n'])

def symbol():
    kind = random.random()
    if kind < 0.1:
        return random.choice(['true', 'false', 'null', 'null.int', 'null.struct'])
    if kind < 0.2:
        return '$' + word(2, 12)
    return random.choice(WORDS) if kind < 0.6 else word(1, 20) + '_' + word(1, 8)

def an_int():
    n = random.randrange(1 << random.choice([4, 8, 12, 16, 24, 32, 40, 62]))
    return str(-n if random.random() < 0.2 else n)

def decimal():
    n, places = random.randrange(10 ** random.randrange(1, 10)), random.randrange(1, 7)
    kind = random.random()
    text = '%d.%0*d' % (n // 10 ** places, places, n % 10 ** places) if kind < 0.8 else '%dd%d' % (n, random.randrange(-9, 9))
    return ('-' if random.random() < 0.2 else '') + text

def timestamp():
    date = '%04d-%02d-%02d' % (random.randrange(1990, 2030), random.randrange(1, 13), random.randrange(1, 29))
    kind = random.random()
    if kind < 0.1:
        return date
    time = 'T%02d:%02d:%02d' % (random.randrange(24), random.randrange(60), random.randrange(60))
    fraction = '' if kind < 0.3 else '.%03d' % random.randrange(1000)
    return date + time + fraction + random.choice(['Z', 'Z', 'Z', '+01:00', '-05:30'])

def operator():
    return random.choice(['+', '-', '*', '/', '<=', '>=', '==', '&&', '||', '->', '...', '@'])

# The characters of a text of about so many bytes, with shares of those that are not ASCII and of escapes.
def chars(size, quote, wide, escape):
    text, at = [], 0
    while at < size:
        kind = random.random()
        if kind < wide:
            c = random.choice('äé€')
            at += len(c.encode())
        elif kind < wide + escape:
            c = random.choice(['\\n', '\\\\', '\\' + quote, '\\t', '\\u00e9', '\\x41'])
            at += len(c)
        else:
            c = random.choice('abcdefghijkl mnopqrstuvwxyz')
            at += 1
        text.append(c)
    return ''.join(text)

def quoted(): return "'" + chars(random.randrange(2, 24), "'", 0.02, 0) + " '"
def short(): return '"' + chars(random.randrange(1, 64), '"', 0.02, 0) + '"'
def strings(): return '"' + chars(1024, '"', 0.05, 0) + '"'
def escapes(): return '"' + chars(random.randrange(32, 256), '"', 0.02, 0.05) + '"'
def long():
    return '\n'.join("'''" + '\n'.join(chars(60, "'", 0.02, 0) for _ in range(random.randrange(2, 8))) + "'''" for _ in range(random.randrange(1, 3))) + ' 1'
def clob():
    if random.random() < 0.5:
        return '{{"' + chars(random.randrange(32, 2048), '"', 0, 0) + '"}}'
    return "{{'''" + '\n'.join(chars(60, "'", 0, 0) for _ in range(random.randrange(2, 8))) + "'''}}"
def blob(): return '{{' + base64.b64encode(random.randbytes(random.randrange(100, 6000))).decode() + '}}'
def lines():
    text = base64.b64encode(random.randbytes(random.randrange(100, 6000))).decode()
    return '{{\n' + '\n'.join(text[i:i + 76] for i in range(0, len(text), 76)) + '\n}}'

kinds = dict(blanks=(blanks, 50000), words=(symbol, 100000), ints=(an_int, 100000), decimals=(decimal, 100000), timestamps=(timestamp, 50000),
    operators=(operator, 100000), quoted=(quoted, 50000), short=(short, 20000), strings=(strings, 500), escapes=(escapes, 5000), long=(long, 2000),
    clobs=(clob, 1000), blobs=(blob, 300), lines=(lines, 300))
for name, (make, count) in kinds.items():
    between = '' if name == 'blanks' else ' ' if name in ('ints', 'operators') else '\n'
    part = between.join(make() for _ in range(count)) + between
    if name == 'operators':
        part = '(' + part + ')\n'
    if name == 'words':
        part += '\n'
    part = part.encode()
    with open(f'{work}/{name}', 'wb') as f:
        for _ in range(size // len(part) + 1):
            f.write(part)
PY
[ $# -gt 0 ] || set -- blanks words ints decimals timestamps operators quoted short strings escapes long clobs blobs lines
# Times are those of the processor, since other work may stand on the machine; the best of each counts.
for name in "$@"; do
    python3 - "$ion" "$plain" "$work/$name" <<'PY'
import os, resource, subprocess, sys
programs = {'ion': [sys.argv[1]]}
if sys.argv[2] != '-':
    programs['plain Rust'] = [sys.argv[2], 'sum']
stream, best, sums = sys.argv[3], {}, set()
for turn in range(5):
    for name, words in programs.items():
        begin = resource.getrusage(resource.RUSAGE_CHILDREN)
        with open(stream, 'rb') as given:
            sums.add(subprocess.run(words, stdin=given, capture_output=True, check=True).stdout)
        end = resource.getrusage(resource.RUSAGE_CHILDREN)
        spent = end.ru_utime + end.ru_stime - begin.ru_utime - begin.ru_stime
        best[name] = min(spent, best.get(name, spent))
size = os.path.getsize(stream) / 1e6
told = ', '.join('%s %.0f MB/s' % (name, size / spent) for name, spent in best.items())
if len(best) == 2:
    told += ', ratio %.2f' % (best['ion'] / best['plain Rust'])
print(os.path.basename(stream) + ': ' + told + ('' if len(sums) == 1 else ', DIFFERENT RESULTS'))
PY
done

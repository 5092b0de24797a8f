#!/usr/bin/env python3
"""Measures `ion` beside jq, cat and a program in plain Rust, and writes the table measured.csv.

usage: measure.py ION [YARD] [--mb N] [--runs N] [--most N] [--data DIR] [--csv FILE]

ION and YARD are paths of built programs. Needs Linux, sh and Python 3 alone; what wants jq, YARD or
GNU's `time` (a program, not the shell's word) is skipped where that is not there, and the table
says so. It makes N MB (100) of records of a log as Ion text, the same records as JSON, and their
binary by `ion convert`, in DIR or in a folder that it removes again.

Speed: each work reads its file and writes to /dev/null; all in turn, N rounds (5), each run a row
with its processor time (user and system) and its wall time. What YARD writes is compared first.
Startup: `ion show` on six bytes, the mean of 200 runs, in turn with `true`. Stack: the least
`ulimit -s`, in steps of 4 KB, under which 100 runs in a row pass, without an environment, since
that lies on the stack too. Memory: the text again and again through a pipe, up to N MB (10000), and
the peak of resident memory by `time`, which moves by 100 KB from run to run with the addresses that
the system chooses."""
import argparse, csv, fcntl, hashlib, os, platform, random, shutil, struct, subprocess, sys
import tempfile, termios, time

COLUMNS = ['part', 'name', 'work', 'bytes', 'records', 'run', 'processor_s', 'wall_s', 'peak_kb',
           'value']
HERE = os.path.dirname(os.path.abspath(__file__))
SERVICES = ['auth', 'billing', 'catalog', 'checkout', 'gateway', 'inventory', 'mailer', 'search']
LEVELS = ['DEBUG', 'INFO', 'INFO', 'INFO', 'INFO', 'WARN', 'ERROR']
STATUS = [200, 200, 200, 200, 201, 204, 301, 400, 404, 500, 503]
TAGS = ['prod', 'canary', 'batch', 'mobile', 'web', 'internal', 'retry', 'cached', 'slow']
WORDS = ('request served from cache after upstream timeout connection reset by peer session '
         'expired while loading profile payment accepted order shipped queue above limit').split()


def record(r):
    """One record of six to ten fields, as Ion text and as JSON: a line each."""
    def below(n):
        return int(r.random() * n)

    def of(words):
        return words[int(r.random() * len(words))]

    fields = []

    def field(name, ion, json=None):
        fields.append((name, ion, json or ion))

    when = '2026-%02d-%02dT%02d:%02d:%02d.%03dZ' % (
        1 + below(12), 1 + below(28), below(24), below(60), below(60), below(1000))
    field('time', when, f'"{when}"')
    level = of(LEVELS)
    field('level', level, f'"{level}"')
    field('service', f'"{of(SERVICES)}"')
    if r.random() < .8:
        field('host', '"ip-10-%d-%d"' % (below(256), below(256)))
    if r.random() < .4:
        field('request', '"%016x"' % r.getrandbits(64))
    if r.random() < .6:
        field('user', str(below(10 ** 7)))
    field('status', str(of(STATUS)))
    field('took', '%d.%03d' % (below(40), below(1000)))
    if r.random() < .8:
        tags = [of(TAGS) for _ in range(1 + below(3))]
        field('tags', '[%s]' % ','.join(tags), '["%s"]' % '","'.join(tags))
    quoted = ' \\"again\\"' if r.random() < .05 else ''
    field('message', '"%s%s"' % (' '.join([of(WORDS) for _ in range(3 + below(7))]), quoted))
    return ('{%s}\n' % ','.join([f'{name}:{ion}' for name, ion, _ in fields]),
            '{%s}\n' % ','.join([f'"{name}":{json}' for name, _, json in fields]))


def make(folder, size):
    """The records as log.ion and log.json; answers how many there are."""
    r, made, count = random.Random('a log'), 0, 0
    with open(f'{folder}/log.ion', 'w', buffering=1 << 20) as text, \
            open(f'{folder}/log.json', 'w', buffering=1 << 20) as json:
        while made < size:
            line, same = record(r)
            text.write(line)
            json.write(same)
            made, count = made + len(line), count + 1
    return count


def timed(words, source='/dev/null'):
    """Runs a program to /dev/null; answers its processor time and its wall time in seconds."""
    files = [(os.POSIX_SPAWN_OPEN, 0, source, os.O_RDONLY, 0),
             (os.POSIX_SPAWN_OPEN, 1, '/dev/null', os.O_WRONLY, 0)]
    began = time.perf_counter()
    child = os.posix_spawn(words[0], words, os.environ, file_actions=files)
    _, status, used = os.wait4(child, 0)
    wall = time.perf_counter() - began
    if status != 0:
        sys.exit(f'status {status}: {" ".join(words)}')
    return used.ru_utime + used.ru_stime, wall


def digest(words):
    """SHA-256 of what a program writes."""
    child, told = subprocess.Popen(words, stdout=subprocess.PIPE), hashlib.sha256()
    while piece := child.stdout.read(1 << 20):
        told.update(piece)
    return told.hexdigest() if child.wait() == 0 else f'status {child.returncode} of {words}'


def peak(words, pieces):
    """Feeds a program through a pipe; answers its peak of resident memory in KB and its processor
    time in seconds, both as `time` says them."""
    with tempfile.NamedTemporaryFile('r') as told:
        words = [shutil.which('time'), '-f', '%M %U %S', '-o', told.name, *words]
        child = subprocess.Popen(words, stdin=subprocess.PIPE, stdout=subprocess.DEVNULL)
        for piece in pieces:
            child.stdin.write(piece)
        child.stdin.close()
        if child.wait() != 0:
            sys.exit(f'status {child.returncode}: {" ".join(words)}')
        kb, user, system = told.read().split()
    return int(kb), '%.2f' % (float(user) + float(system))


def least_stack(words):
    """The least `ulimit -s` in KB under which 100 runs in a row pass."""
    for kb in range(4, 8192, 4):
        limited = ['/bin/sh', '-c', f'ulimit -c 0; ulimit -s {kb}; exec "$@"', 'sh', *words]
        for _ in range(100):
            ran = subprocess.run(limited, env={}, stdout=subprocess.DEVNULL,
                                 stderr=subprocess.DEVNULL)
            if ran.returncode != 0:
                break
        else:
            return kb
    return 'none'


def first_line(words):
    """The first line of what a program writes, or nothing where it is not there."""
    ran = subprocess.run(words, stdout=subprocess.PIPE, text=True)
    return ran.stdout.split('\n')[0]


def machine():
    """The processor's model."""
    with open('/proc/cpuinfo') as info:
        for line in info:
            if line.startswith('model name'):
                return line.split(':', 1)[1].strip()
    return platform.machine()


class Table:
    """The rows, each written to the file and shown as soon as it is there."""

    def __init__(self, path):
        self.file = open(path, 'w', newline='')
        self.rows = csv.DictWriter(self.file, COLUMNS, lineterminator='\n')
        self.rows.writeheader()

    def add(self, part, name, work='', **columns):
        for key in ('processor_s', 'wall_s'):
            if isinstance(columns.get(key), float):
                columns[key] = f'{columns[key]:.6f}'
        self.rows.writerow({'part': part, 'name': name, 'work': work} | columns)
        self.file.flush()
        print(part, name, work, *[f'{k}={v}' for k, v in columns.items()], flush=True)


def about(table, ion, yard, jq, cat):
    table.add('about', 'date', value=time.strftime('%Y-%m-%d %H:%M UTC', time.gmtime()))
    table.add('about', 'cores', value=os.cpu_count())
    table.add('about', 'processor', value=machine())
    table.add('about', 'system', value=f'{platform.system()} {platform.release()}')
    table.add('about', 'load at the start', value=' '.join('%.2f' % x for x in os.getloadavg()))
    table.add('about', 'ion --version', value=first_line([ion, '--version']))
    table.add('about', 'bytes of ion', value=os.path.getsize(ion))
    table.add('about', 'jq --version', value=first_line([jq, '--version']) if jq else 'skipped: jq')
    table.add('about', 'cat --version', value=first_line([cat, '--version']))
    table.add('about', 'yard', value='plain Rust written for speed' if yard else 'skipped: yard')


def speed(table, folder, runs, count, ion, yard, jq, cat):
    text, binary, json = (f'{folder}/log.{end}' for end in ('ion', '10n', 'json'))
    works = []
    for command, file, work in (('show', text, 'text to text'), ('check', text, 'text checked'),
                                ('convert', text, 'text to binary'),
                                ('show', binary, 'binary to text')):
        works.append(('ion', work, [ion, command, file], file))
        if yard:
            words = [yard, command, file]
            works.append(('yard', work, words, file))
            same = digest([ion, command, file]) == digest(words)
            table.add('output', 'yard', work, value='the same as of ion' if same else 'other')
    if not yard:
        table.add('speed', 'yard', value='skipped: yard')
    if jq:
        works.append(('jq', 'JSON to JSON', [jq, '-c', '.', json], json))
    else:
        table.add('speed', 'jq', value='skipped: jq')
    works.append(('cat', 'text copied', [cat, text], text))
    for run in range(1, runs + 1):
        for name, work, words, file in works:
            processor, wall = timed(words)
            table.add('speed', name, work, bytes=os.path.getsize(file), records=count, run=run,
                      processor_s=processor, wall_s=wall)


def startup(table, folder, ion):
    small, six = f'{folder}/small.ion', b'[1,2]\n'
    with open(small, 'wb') as file:
        file.write(six)
    works = [('ion', 'show of six bytes', [ion, 'show']), ('true', '', [shutil.which('true')])]
    sums = {name: [0, 0] for name, _, _ in works}
    for _ in range(200):
        for name, _, words in works:
            for i, seconds in enumerate(timed(words, small)):
                sums[name][i] += seconds / 200
    for name, work, words in works:
        kb = ''
        if name == 'ion' and shutil.which('time'):
            kb = round(sum(peak(words, [six])[0] for _ in range(200)) / 200)
        table.add('startup', name, work, run='mean of 200', processor_s=sums[name][0],
                  wall_s=sums[name][1], peak_kb=kb)


def stack(table, folder, ion):
    table.add('stack', 'true', value=f'{least_stack([shutil.which("true")])} KB')
    for depth in (1, 65535):
        text, binary = f'{folder}/deep.ion', f'{folder}/deep.10n'
        with open(text, 'w') as file:
            file.write('[' * depth + ']' * depth + '\n')
        with open(binary, 'w') as file:
            subprocess.run([ion, 'convert', '--depth', '65535', text], stdout=file, check=True)
        for form, file in (('text', text), ('binary', binary)):
            for command in ('check', 'show', 'convert'):
                words = [ion, command, '--depth', '65535', file]
                table.add('stack', 'ion', f'{command} {form} of depth {depth}',
                          bytes=os.path.getsize(file), value=f'{least_stack(words)} KB')


def memory(table, folder, most, ion):
    if not shutil.which('time'):
        return table.add('memory', 'ion', value='skipped: time')
    os.nice(10)  # no time is compared here, so other work goes first
    with open(f'{folder}/log.ion', 'rb') as file:
        block = file.read()
    size = 10 ** 6
    while size <= most:
        if size < len(block):
            pieces = [block[:block.rindex(b'\n', 0, size) + 1]]
        else:
            pieces = [block] * round(size / len(block))
        for command in ('check', 'show', 'convert'):
            kb, took = peak([ion, command], pieces)
            table.add('memory', 'ion', f'{command} text', bytes=sum(map(len, pieces)),
                      processor_s=took, peak_kb=kb)
        size *= 10


def main():
    words = argparse.ArgumentParser(usage=__doc__.split('usage: ')[1].split('\n')[0])
    words.add_argument('ion')
    words.add_argument('yard', nargs='?')
    words.add_argument('--mb', type=int, default=100)
    words.add_argument('--runs', type=int, default=5)
    words.add_argument('--most', type=int, default=10000)
    words.add_argument('--data')
    words.add_argument('--csv', default=f'{HERE}/measured.csv')
    asked = words.parse_args()
    ion = os.path.realpath(asked.ion)
    yard = asked.yard and os.path.realpath(asked.yard)
    jq, cat = shutil.which('jq'), shutil.which('cat')
    table = Table(asked.csv)
    about(table, ion, yard, jq, cat)
    folder = asked.data or tempfile.mkdtemp()
    os.makedirs(folder, exist_ok=True)
    try:
        count = make(folder, asked.mb * 10 ** 6)
        with open(f'{folder}/log.10n', 'wb') as file:
            subprocess.run([ion, 'convert', f'{folder}/log.ion'], stdout=file, check=True)
        speed(table, folder, asked.runs, count, ion, yard, jq, cat)
        startup(table, folder, ion)
        stack(table, folder, ion)
        memory(table, folder, asked.most * 10 ** 6, ion)
    finally:
        if not asked.data:
            shutil.rmtree(folder)
    table.add('about', 'load at the end', value=' '.join('%.2f' % x for x in os.getloadavg()))


main()

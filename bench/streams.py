#!/usr/bin/env python3
"""Makes streams to measure by, always the same ones for a size. It shares nothing with `crates/`.

usage: bench/streams.py FOLDER [MB] [KIND ..]

Kinds: log ints strings blobs deep config fields nest, each as text (KIND.ion) and the same values as binary (KIND.10n, by
`yard convert`; bench/beside.py says how `yard` is built), and json (log.json, the records of log.ion). All of them where
none is named; 100 MB of text each where MB is not given. A value at top level is some 100 KB at most, so the default
limits hold. A further kind has to be named: bucket, structs over 3,000 names that no byte tells apart which `ion` reads for
the bucket of a text, its first and last sixteen; quoted, structs whose names and symbols stand between quotes in text; noted,
structs whose values have two annotations; ids, structs whose names and symbols are ids in text (`$10`), of which each has one;
names, structs of names that come once, some 18 bytes each; floats, records and lists of floats as libraries for Java, Python and
JavaScript spell them, which the programs take with --floats (OPTIONS).
"""
import base64
import decimal
import json
import os
import random
import shutil
import subprocess
import sys

HERE = os.path.dirname(os.path.abspath(__file__))
YARD = os.environ.get('YARD') or os.path.join(HERE, 'yard', 'target', 'release', 'yard')
KINDS = ['log', 'json', 'ints', 'strings', 'blobs', 'deep', 'config', 'fields', 'nest']
MORE = ['bucket', 'quoted', 'noted', 'ids', 'names', 'floats']
# the words that the streams of a kind want after a command
OPTIONS = {'floats': ['--floats']}
# what both programs do with a stream to be measured
COMMANDS = ['show', 'show --pretty', 'check', 'convert']

SERV = ['auth-api', 'billing', 'catalog', 'checkout', 'gateway', 'inventory', 'mailer', 'orders', 'search', 'users']
LEVEL = ['DEBUG', 'INFO', 'INFO', 'INFO', 'INFO', 'WARN', 'ERROR']
REGION = ['eu_west_1', 'eu_central_1', 'us_east_1', 'us_west_2', 'ap_south_1']
TAG = ['prod', 'canary', 'batch', 'mobile', 'web', 'internal', 'retry', 'cached', 'slow']
VERB = ['GET', 'GET', 'GET', 'POST', 'PUT', 'DELETE', 'PATCH']
STATUS = [200, 200, 200, 201, 204, 301, 400, 401, 404, 500, 503]
WORD = ('request served from cache after upstream timeout connection reset by peer user session expired while loading profile '
        'payment accepted order shipped queue depth above threshold retrying in background').split()
AGENT = ['Mozilla/5.0 (X11; Linux x86_64) AppleWebKit/537.36', 'curl/8.5.0', 'okhttp/4.12.0', 'python-requests/2.31.0',
         'Go-http-client/2.0']
SYMBOLS = {'level', 'region', 'method'}
TEXTS = ['the quick brown fox jumps over the lazy dog while the band plays on and nobody minds the weather at all; ',
         'Съешь же ещё этих мягких французских булок, да выпей чаю — и приходи завтра снова, если захочешь. ',
         'いろはにほへと ちりぬるを わかよたれそ つねならむ うゐのおくやま けふこえて あさきゆめみし ゑひもせす。',
         'Zwölf Boxkämpfer jagen Viktor quer über den großen Sylter Deich; Größe, Maß und Überfluß. ',
         '天地玄黃 宇宙洪荒 日月盈昃 辰宿列張 寒來暑往 秋收冬藏 閏餘成歲 律呂調陽',
         'emoji 😀🎉🚀 and ✓ marks, arrows → ⇒, math ∑∫√ ≠ ≤ ']
LEAF = ['1', '22', 'true', 'a', '"s"', 'null', '-7']
KEY = ['a', 'b', 'key', 'node', 'left', 'right']
PART = ['listen', 'limits', 'pool', 'cache', 'tracing', 'rates', 'tenants', 'storage']
SETTING = ['timeout', 'max_size', 'weight', 'ratio', 'interval', 'threshold', 'name', 'zone', 'enabled', 'since']


def log_record(r):
    """One record of a log, by its fields."""
    t = r.randrange(86400000)
    h, t = divmod(t, 3600000)
    m, t = divmod(t, 60000)
    s, ms = divmod(t, 1000)
    ts = '2024-%02d-%02dT%02d:%02d:%02d.%03dZ' % (r.randrange(1, 13), r.randrange(1, 29), h, m, s, ms)
    msg = ' '.join(r.choice(WORD) for _ in range(r.randrange(3, 12)))
    if r.random() < .05:
        msg += ' "quoted\\tpath"'
    return dict(
        ts=ts, level=r.choice(LEVEL), service=r.choice(SERV), region=r.choice(REGION),
        host='ip-10-%d-%d-%d' % (r.randrange(256), r.randrange(256), r.randrange(256)),
        request_id='%016x' % r.getrandbits(64), user_id=r.randrange(1, 10 ** 7), method=r.choice(VERB),
        path='/v1/users/%d/orders/%d' % (r.randrange(10 ** 6), r.randrange(10 ** 5)), status=r.choice(STATUS),
        duration_us=r.randrange(100, 3000000), bytes_out=r.randrange(0, 200000), cached=r.random() < .3,
        agent=r.choice(AGENT), error=None if r.random() < .8 else 'E%04d' % r.randrange(10000),
        tags=r.sample(TAG, r.randrange(1, 4)),
        spans=[[i, r.randrange(1, 50000), r.randrange(1, 50000)] for i in range(r.randrange(1, 5))],
        ctx=dict(retry=r.randrange(3), shard=r.randrange(64), trace='%08x' % r.getrandbits(32),
                 upstream=[r.choice(SERV) for _ in range(r.randrange(0, 3))]),
        message=msg)


def ion_string(s):
    return '"' + s.replace('\\', '\\\\').replace('"', '\\"') + '"'


def ion_of(name, x):
    """A field's value as Ion text."""
    if name == 'ts' or name in SYMBOLS:
        return x
    if x is None:
        return 'null.string'
    if isinstance(x, (bool, int)):
        return str(x).lower()
    if isinstance(x, str):
        return ion_string(x)
    if name == 'tags':
        return '[' + ','.join(x) + ']'
    if name == 'spans':
        return '[' + ','.join('[%d,%d,%d]' % tuple(s) for s in x) + ']'
    upstream = ','.join('"' + u + '"' for u in x['upstream'])
    return '{retry:%d,shard:%d,trace:"%s",upstream:[%s]}' % (x['retry'], x['shard'], x['trace'], upstream)


def log_line(record):
    return '{' + ','.join(name + ':' + ion_of(name, x) for name, x in record.items()) + '}\n'


def ints(r):
    """A list of ints: small, of up to 32 bits, of up to 63, or of up to 127."""
    k, kind = r.randrange(100, 2000), r.random()
    if kind < .4:
        return '[' + ','.join(str(r.randrange(-1000, 1000)) for _ in range(k)) + ']\n'
    if kind < .7:
        return '[' + ','.join(str(r.getrandbits(r.randrange(1, 33))) for _ in range(k)) + ']\n'
    if kind < .95:
        return '[' + ', '.join(str(r.getrandbits(r.randrange(1, 64)) * r.choice((1, -1))) for _ in range(k)) + ']\n'
    return '[' + ','.join(str(r.getrandbits(r.randrange(60, 128))) for _ in range(k)) + ']\n'


def strings(r):
    """A string of up to some 3,000 characters, some of them escapes."""
    base = r.choice(TEXTS) if r.random() < .7 else TEXTS[0]
    n, parts, length = r.randrange(100, 3000), [], 0
    while length < n:
        s = base[r.randrange(len(base) // 2):]
        if r.random() < .15:
            s += r.choice(['\\n', '\\t', '\\"', '\\\\', '\\u00e9', '\\x41'])
        parts.append(s)
        length += len(s)
    return '"' + ''.join(parts) + '"\n'


def blobs(r):
    return '{{' + base64.b64encode(r.randbytes(r.randrange(1024, 10240))).decode() + '}}\n'


def nested(r, depth):
    """A value of containers: one member goes on downwards, the others now and then."""
    if depth >= 30 or r.random() < .03:
        return r.choice(LEAF)
    members = [nested(r, depth + 1) if i == 0 or r.random() < .15 else r.choice(LEAF) for i in range(r.randrange(1, 4))]
    r.shuffle(members)
    kind = r.random()
    if kind < .4:
        return '[' + ','.join(members) + ']'
    if kind < .75:
        return '{' + ','.join(r.choice(KEY) + ':' + member for member in members) + '}'
    return '(' + ' '.join(members) + ')'


def deep(r):
    return '[' + ','.join(nested(r, 0) for _ in range(r.randrange(5, 40))) + ']\n'


def setting(r):
    """The value of a setting."""
    x = r.random()
    if x < .3:
        return 'seconds::%d.%d' % (r.randrange(600), r.randrange(1000))
    if x < .45:
        return 'bytes::%d' % (1 << r.randrange(8, 36))
    if x < .6:
        return '%d.%02dd%d' % (r.randrange(100), r.randrange(100), r.randrange(-6, 7))
    if x < .7:
        return '"%s"' % ' '.join(r.choice(WORD) for _ in range(r.randrange(1, 5)))
    if x < .8:
        return "zone::'%s'" % r.choice(['eu west', 'us-east-1', 'ap/south'])
    if x < .88:
        return r.choice(['true', 'false'])
    if x < .94:
        return '2024-%02d-%02d' % (r.randrange(1, 13), r.randrange(1, 29))
    return '[ %s ]' % ', '.join(str(r.randrange(100000)) for _ in range(r.randrange(1, 8)))


def config(r):
    """Settings as a person writes them: indented, with comments and annotations."""
    o = ['// section %d of the settings\n' % r.randrange(10000)]
    o.append('service::%s::{\n' % r.choice(['primary', 'replica', "'blue green'"]))
    for _ in range(r.randrange(3, 12)):
        part = r.choice(PART)
        o.append('    /* %s: see the handbook, chapter %d */\n    %s: {\n' % (part, r.randrange(40), part))
        for _ in range(r.randrange(2, 9)):
            name = r.choice(SETTING)
            value = setting(r)
            o.append('        %s: %s,%s\n' % (name, value, '  // tuned by hand' if r.random() < .2 else ''))
        o.append('    },\n')
    o.append('}\n\n')
    return ''.join(o)


def fields(r, names):
    """A struct over many field names, the frequent ones first."""
    o = []
    for _ in range(r.randrange(4, 24)):
        name = names[min(len(names) - 1, int(r.paretovariate(0.6)) - 1)]
        x = r.random()
        value = str(r.randrange(10000)) if x < .5 else r.choice(names[:200]) if x < .8 else '"%x"' % r.getrandbits(40)
        o.append(name + ':' + value)
    return '{' + ','.join(o) + '}\n'


def bucket(r):
    """A struct over names of one bucket, each as frequent as the others."""
    names = ['aaaaaaaaaaaaaaaa%dbbbbbbbbbbbbbbbb' % r.randrange(1000, 4000) for _ in range(12)]
    return '{' + ','.join('%s:%d' % (name, r.randrange(100)) for name in names) + '}\n'


def names_once(r):
    """A struct of ten names, each of which comes once in the stream but for chance."""
    return '{' + ','.join('name_%x:%d' % (r.getrandbits(32), r.randrange(1000)) for _ in range(10)) + '}\n'


def quoted(r):
    """A struct whose names and symbols are no identifiers."""
    value = [lambda: str(r.randrange(10 ** 5)), lambda: "'%s'" % r.choice(REGION).replace('_', '-')]
    return '{%s}\n' % ','.join("'%s-%s':%s" % (r.choice(TAG), r.choice(SERV), r.choice(value)()) for _ in range(12))


def noted(r):
    """A struct whose values have two annotations each."""
    value = [lambda: str(r.randrange(10 ** 5)), lambda: r.choice(REGION), lambda: '"%s"' % r.choice(WORD), lambda: 'true']
    return '{%s}\n' % ','.join('%s:%s::%s::%s' % (r.choice(SETTING), r.choice(TAG), r.choice(PART), r.choice(value)())
                               for _ in range(12))


def ids(r):
    """A struct whose names are ids, as are half of its values."""
    value = [lambda: str(r.randrange(10 ** 5)), lambda: '"%s"' % r.choice(WORD)]
    return '{%s}\n' % ','.join('$%d:%s' % (r.randrange(10, 28), '$%d' % r.randrange(10, 28) if r.random() < .5 else r.choice(value)())
                               for _ in range(12))


def by_python(x):
    """A float as a library for Python writes it: `21.5e0`, `100.0e0`, `1e-05`."""
    s = repr(x)
    return s if 'e' in s else s + 'e0'


def by_javascript(x):
    """The same for JavaScript: `2.15e1`, `1e2`, `1e-5`."""
    return format(decimal.Decimal(repr(x)).normalize(), 'e').replace('+', '')


def by_java(x):
    """The same for Java: `21.5e0`, `100e0`, `1.0E-5`."""
    if x == 0 or 1e-3 <= abs(x) < 1e7:
        return repr(x).removesuffix('.0') + 'e0'
    digits, exponent = by_javascript(x).split('e')
    return digits + ('' if '.' in digits else '.0') + 'E' + exponent


def price(r):
    return r.randrange(1, 40000) / r.choice([2, 20, 100, 100])


def coordinate(r):
    """A number with 15 to 17 digits but for chance."""
    return r.uniform(-180, 180)


def small_int(r):
    return float(r.randrange(-20, 1000))


def rate(r):
    """A number below a thousandth, of few digits."""
    return float('%de-%d' % (r.randrange(1, 10 ** r.randrange(1, 4)), r.randrange(5, 12)))


def floats(r):
    """A record with floats, a list of them, or a line of points, as one of three libraries writes it."""
    put, kind = r.choice([by_java, by_python, by_javascript]), r.random()
    if kind < .5:
        return '{id:%d,sku:"%x",price:%s,quantity:%s,lat:%s,lon:%s,rate:%s,name:"%s"}\n' % (
            r.randrange(10 ** 6), r.getrandbits(32), put(price(r)), put(small_int(r)), put(coordinate(r) / 2), put(coordinate(r)),
            put(rate(r)), r.choice(WORD))
    if kind < .8:
        one = r.choice([price, coordinate, small_int, rate])
        return '[' + r.choice([',', ', ']).join(put(one(r)) for _ in range(r.randrange(5, 200))) + ']\n'
    points = ('[%s,%s]' % (put(coordinate(r)), put(coordinate(r) / 2)) for _ in range(r.randrange(2, 60)))
    return '{type:line,coordinates:[' + ','.join(points) + ']}\n'


def nest(r):
    """A value of some 20 KB below 40 to 60 containers, each with a few members of its own."""
    inside = '[' + ','.join(str(r.randrange(100000)) for _ in range(3000)) + ']'
    for _ in range(r.randrange(40, 60)):
        if r.random() < .5:
            inside = '{a:%d,b:%s,c:"%x"}' % (r.randrange(100), inside, r.getrandbits(32))
        else:
            inside = '[%d,%s]' % (r.randrange(1000), inside)
    return inside + '\n'


def fill(path, size, make):
    """Writes values to a file until it has a size."""
    n = 0
    with open(path, 'w', encoding='utf-8', newline='\n', buffering=1 << 20) as f:
        while n < size:
            s = make()
            n += len(s) if s.isascii() else len(s.encode())
            f.write(s)


def maker_of(kind, r):
    """What makes one value of a kind after the other."""
    if kind == 'fields':
        names = ['%s_%s_%d' % (r.choice(TAG), r.choice(SERV).replace('-', '_'), i) for i in range(5000)]
        return lambda: fields(r, names)
    if kind == 'ids':
        first = ['$ion_symbol_table::{symbols:[%s]}\n' % ','.join('"%s"' % name for name in SETTING + PART)]
        return lambda: first.pop() if first else ids(r)
    return {'log': lambda: log_line(log_record(r)),
            'json': lambda: json.dumps(log_record(r), separators=(',', ':')) + '\n',
            'ints': lambda: ints(r), 'strings': lambda: strings(r), 'blobs': lambda: blobs(r),
            'deep': lambda: deep(r), 'config': lambda: config(r), 'nest': lambda: nest(r), 'bucket': lambda: bucket(r),
            'quoted': lambda: quoted(r), 'noted': lambda: noted(r), 'names': lambda: names_once(r),
            'floats': lambda: floats(r)}[kind]


def main(words):
    if not words:
        print(__doc__)
        return 2
    folder, size = words[0], int(float(words[1] if len(words) > 1 else 100) * 1000 * 1000)
    kinds = words[2:] or KINDS
    for kind in kinds:
        if kind not in KINDS + MORE:
            sys.exit(f'there is no kind {kind}')
    if set(kinds) != {'json'} and not shutil.which(YARD):
        sys.exit(f'there is no program {YARD}, which makes the binary: (cd bench/yard && cargo build --release --offline) builds it')
    os.makedirs(folder, exist_ok=True)
    for kind in kinds:
        r = random.Random('yard ' + kind.replace('json', 'log'))
        path = os.path.join(folder, 'log.json' if kind == 'json' else kind + '.ion')
        fill(path, size, maker_of(kind, r))
        if kind != 'json':
            with open(path[:-3] + '10n', 'wb') as file:
                subprocess.run([YARD, 'convert', *OPTIONS.get(kind, []), path], stdout=file, check=True)
    return 0


if __name__ == '__main__':
    sys.exit(main(sys.argv[1:]))

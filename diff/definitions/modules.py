"""The modules of `crates/*/specs`: what each declares and imports, and what a name in one of them means.

A module is read when a name leads into it. Words of the kit's libraries and those of the crates' code have no file here:
the former are written by hand in runtime.js, of the latter the constructors are known by how they are used.
"""
import os
import re

from syntax import tokens

ROOT = os.path.dirname(os.path.dirname(os.path.dirname(os.path.abspath(__file__))))


class Mod:
    """One module: its constructors with their arities, its functions with their clauses, and what it imports."""

    def __init__(self, path, crate, name):
        self.key, self.id = path, f'{crate}_{name}'
        self.cons, self.funs, self.imports, self.alias, self.skip = {}, {}, {}, {}, set()


mods = {}


def chunks(lines, base):
    """Groups of numbered lines, each of which begins at an indentation."""
    out = []
    for n, line in lines:
        if not line.strip() or line.strip().startswith('--'):
            continue
        if len(line) - len(line.lstrip()) == base and line.strip()[0] not in ']})':
            out.append([])
        out[-1].append((n, line))
    return out


def closing(part, i):
    """Where the bracket that opens at i is closed, after it, and how many names stand before its colon (none without one)."""
    opens, closes = {'{': '{}', '(': '()'}[part[i].v]
    depth, names, colon = 0, 0, False
    while True:
        depth += (part[i].v == opens) - (part[i].v == closes)
        colon = colon or part[i].v == ':' and depth == 1
        names += not colon and depth == 1 and part[i].k == 'id'
        i += 1
        if depth == 0:
            return i, names if colon else 0


def arity(type_words):
    """The number of explicit arguments of a type, and the words of its last part."""
    depth, parts, last = 0, [], []
    for t in type_words:
        depth += (t.v in '([{') - (t.v in ')]}')
        if t.v == '→' and depth == 0:
            parts.append(last)
            last = []
        else:
            last.append(t)
    count = 0
    for part in parts:
        i = 0
        while i < len(part):
            names = 0
            if part[i].v in '{(':
                end, names = closing(part, i)
            if part[i].v == '{':
                i = end
            elif names:
                count, i = count + names, end
            else:
                count, i = count + 1, len(part)
    return count, last


def read_use(m, body):
    """A line `use`: names of another module, or that module by a name."""
    x = re.match(r'(?:pub )?use ([\w.]+?)(?:\.\{(.*)\}|(?: as (\w+)))?$', ' '.join(body.split()))
    if not x:
        raise SyntaxError(body)
    if x[2] is None:
        m.alias[x[3] or x[1].split('.')[-1]] = x[1]
        return
    for item in filter(None, (item.strip() for item in x[2].split(','))):
        there, _, here = item.partition(' as ')
        m.imports[(here or there).strip()] = (x[1], there.strip())


def read_data(m, chunk, base):
    """The constructors of a `data`, each with the number of its explicit arguments."""
    for d in chunks(chunk[1:], base + 2):
        ts = tokens('\n'.join(l for _, l in d), d[0][0])
        at = [t.v for t in ts].index(':')
        for t in ts[:at]:
            m.cons[t.v] = arity(ts[at + 1:])[0]


def read_chunk(m, chunk, base):
    """One declaration."""
    head, body = chunk[0][1].strip(), '\n'.join(l for _, l in chunk)
    w = head.split()
    if w[0] == 'use' or w[:2] == ['pub', 'use']:
        return read_use(m, body)
    if w[:2] == ['pub', 'mod'] or w[0] in ('mod', 'infixl', 'infixr', 'infix'):
        return
    if head in ('mutual', 'unfoldable mutual', 'abbrev mutual'):
        for d in chunks(chunk[1:], 2):
            read_chunk(m, d, 2)
        return
    toks, i = tokens(body, chunk[0][0]), 0
    while toks[i].v in ('abbrev', 'unfoldable', 'pub'):
        i += 1
    if toks[i].v == 'data':
        return read_data(m, chunk, base)
    if toks[i].v == 'record' or any(t.v in ('>>=', '>>') and t.k == 'op' for t in toks[:3]):
        return
    if toks[i].k == 'id' and toks[i + 1].v == ':':
        last = arity(toks[i + 2:])[1]
        if last and last[0].v == 'Type':
            m.skip.add(toks[i].v)
        m.funs.setdefault(toks[i].v, [])
    elif toks[i].v not in m.skip:
        m.funs.setdefault(toks[i].v, []).append((toks, i))


def module(path):
    """The module of a path, or nothing where it is no file of `specs`."""
    if path not in mods:
        found = re.fullmatch(r'Rattle\.(\w+)\.specs\.(\w+)', path)
        file = found and f'{ROOT}/crates/{found[1]}/specs/{found[2]}.antt'
        mods[path] = None
        if file and os.path.exists(file):
            m = mods[path] = Mod(path, found[1], found[2])
            with open(file, encoding='utf-8') as opened:
                lines = list(enumerate(opened.read().split('\n'), 1))
            for chunk in chunks(lines, 0):
                read_chunk(m, chunk, 0)
    return mods[path]


# Constructors of types of the crates' code that have arguments, the words of libraries that runtime.js has, and the
# constructors of the libraries.
VARIANTS = {'Fraction': 1, 'Refused': 2}
NATIVE = set('''length drop take replicate map filter reverse nat_le nat_lt nat_eq not max min is_some is_none unwrap_or option_map
 option_and_then fold flat_map sum_by slice_get slice_index_or bytes_eq is_utf8 encode_utf8 decimal encode_of decoded_of
 standard days_in_month days_from_civil int_le neg_ℤ sum eqb from_be_bytes to_be_bytes
 fits from_bits to_bits of_bits round closest num den nearest_to_decimal'''.split())
CON = {'Some': 1, 'None': 0, 'Ok': 1, 'Err': 1, '[]': 0, '∷': 2, 'pos': 1, 'negsuc': 1, 'Less': 0, 'Equal': 0, 'Greater': 0,
       'nan': 0, 'inf': 1, 'fin': 3, 'binary32': 0, 'binary64': 0, 'w32': 0, 'w64': 0}
PRIMITIVE = ('true', 'false', 'zero', 'suc', 'tt')


def resolve(m, name):
    """What a name means in a module: a constructor with its arity, a function, a word of a library, or a type."""
    if name in PRIMITIVE:
        return ('prim', name)
    if name in m.cons:
        return ('con', name, m.cons[name])
    if name in m.funs and name not in m.skip:
        return ('fun', m, name)
    if name in m.imports:
        return resolve_in(*m.imports[name])
    if name in CON:
        return ('con', name, CON[name])
    return ('type', name)


def resolve_in(path, name):
    """What a name means that a module of another path declares."""
    m = module(path)
    if m:
        if name in m.cons or name in m.funs and name not in m.skip:
            return resolve(m, name)
        return resolve_in(*m.imports[name]) if name in m.imports else ('type', name)
    if path.endswith('TheVariants'):
        return ('con', name, VARIANTS.get(name, 0))
    if name in PRIMITIVE:
        return ('prim', name)
    if name in CON:
        return ('con', name, CON[name])
    return ('nat', name) if name in NATIVE else ('type', name)

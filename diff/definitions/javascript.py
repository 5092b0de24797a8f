"""Translates functions of the ghost language, clause by clause, into JavaScript that computes only what is asked for.

`m` is the module that a clause stands in, `env` what a name of the clause is called in JavaScript. What a function rests on
is translated with it; where any of it has a form that is not known here, nothing is translated. A value that is not computed yet
is a `T`, which `F` computes; runtime.js has both, and what else is called here.
"""
import re

from modules import CON, resolve, resolve_in
from syntax import Parser

CALLS = {'+': 'ADD', '-': 'SUB', '*': 'MUL', '/': 'DIV', '%': 'MOD', '^': 'POW', '==': 'EQ',
         '+ℤ': 'ADDZ', '-ℤ': 'SUBZ', '*ℤ': 'MULZ'}
LAZY_CALLS = {'∷': 'CONS', '++': 'APP'}
PRIMITIVES = {'true': 'true', 'false': 'false', 'zero': '0', 'tt': 'TT', 'suc': 'SUC'}

wanted = []
parsed = {}
names = [0]


def fresh(name):
    """A name that nothing else has."""
    names[0] += 1
    return '$' + re.sub('[^A-Za-z0-9_]', '', name) + str(names[0])


def mangled(name):
    return re.sub('[^A-Za-z0-9_$]', lambda c: '$%x' % ord(c[0]), name)


# -- names

def lookup(m, env, name):
    return ('loc', env[name]) if name in env else resolve(m, name)


def qualified(m, env, e):
    """What a name after that of a module means, as `kind.List`."""
    if e[0] == 'get' and e[1][0] == 'var' and e[1][1] not in env and e[1][1] in m.alias:
        return resolve_in(m.alias[e[1][1]], e[2])
    return None


def head(m, env, e):
    """What stands in front of arguments."""
    return lookup(m, env, e[1]) if e[0] == 'var' else qualified(m, env, e) or ('exp',)


def ref(m, r):
    """The JavaScript of what a name means; a function is wanted by this."""
    if r[0] == 'loc':
        return r[1]
    if r[0] == 'con':
        if r[1] == '[]':
            return 'NIL'
        return f'C0({r[1]!r})' if r[2] == 0 else f'CF({r[1]!r},{r[2]})'
    if r[0] == 'fun':
        wanted.append(r[1:])
        return 'G.' + mangled(f'{r[1].id}${r[2]}')
    if r[0] == 'nat':
        return f'N[{r[1]!r}]'
    if r[0] == 'prim':
        return PRIMITIVES[r[1]]
    if r[1][0].isupper() or r[1][0] in 'ℕℤ⊤⊥¬':  # a type, of which nothing is computed
        return 'undefined'
    raise SyntaxError(f'{m.id}: {r[1]} has no meaning here')


def number(n):
    return f'{n}' if n <= 2**53 - 1 else f'{n}n'


# -- expressions

def needs_no_delay(m, env, e):
    """Whether an expression is a value already, so that it need not wait in a `T`."""
    if e[0] == 'app':
        r = head(m, env, e[1])
        return is_codes(env, e) or r[0] == 'con' and len(e[2]) == r[2]
    return e[0] in ('num', 'var', 'lam', 'pair') or e[0] == 'rec' and e[1] is None or e[0] == 'op' and e[1] == '∷'


def delayed(m, env, e):
    """The JavaScript of an expression that may never be asked for."""
    if e[0] == 'var':
        return ref(m, lookup(m, env, e[1]))
    if qualified(m, env, e):
        return ref(m, qualified(m, env, e))
    return expression(m, env, e) if needs_no_delay(m, env, e) else f'new T(()=>{expression(m, env, e)})'


def all_delayed(m, env, es):
    return ','.join(delayed(m, env, e) for e in es)


def expression(m, env, e):
    """The JavaScript of an expression that is computed at once."""
    return EXPRESSIONS[e[0]](m, env, e)


def of_name(m, env, e):
    r = lookup(m, env, e[1])
    return f'F({ref(m, r)})' if r[0] in ('loc', 'fun', 'nat') else ref(m, r)


def of_field(m, env, e):
    q = qualified(m, env, e)
    if q:
        return f'F({ref(m, q)})'
    return f'F({expression(m, env, e[1])}.{"p" + e[2] if e[2].isdigit() else e[2]})'


def is_codes(env, e):
    """`codes "text"`: the bytes of a text."""
    return e[1] == ('var', 'codes') and 'codes' not in env and e[2][0][0] == 'str'


def of_call(m, env, e):
    if is_codes(env, e):
        return f'LIST({list(e[2][0][1])!r})'
    r, args = head(m, env, e[1]), e[2]
    if r[0] == 'con' and len(args) == r[2]:
        if r[1] == '∷':
            return f'CONS({all_delayed(m, env, args)})'
        return '{t:%r,%s}' % (r[1], ','.join(f'p{i}:{delayed(m, env, a)}' for i, a in enumerate(args)))
    if r == ('prim', 'suc'):
        return f'ADD({expression(m, env, args[0])},1)'
    if r[0] == 'type':
        return ref(m, r)
    if r[0] == 'fun' and arity_of(r) and len(args) >= arity_of(r):
        n = arity_of(r)
        call = f'{ref(m, r)}({all_delayed(m, env, args[:n])})'
        return call if len(args) == n else f'A({call},[{all_delayed(m, env, args[n:])}])'
    function = expression(m, env, e[1]) if r[0] == 'exp' else ref(m, r)
    return f'A({function},[{all_delayed(m, env, args)}])'


def of_operator(m, env, e):
    o, left, right = e[1:]
    if o in LAZY_CALLS:
        return f'{LAZY_CALLS[o]}({all_delayed(m, env, [left, right])})'
    if o in ('&&', '||'):
        return f'({expression(m, env, left)}{o}{expression(m, env, right)})'
    if o == '>>=':
        return f'BIND({expression(m, env, left)},{delayed(m, env, right)})'
    if o == '>>':
        return f'THEN({expression(m, env, left)},()=>{expression(m, env, right)})'
    if o not in CALLS:
        raise SyntaxError(f'{m.id}: {o} is not computed')
    return f'{CALLS[o]}({expression(m, env, left)},{expression(m, env, right)})'


def of_choice(m, env, e):
    return f'({expression(m, env, e[1])}?{expression(m, env, e[2])}:{expression(m, env, e[3])})'


def of_lambda(m, env, e):
    inside, given = dict(env), []
    for p in e[1]:
        given.append(fresh(p[1]))
        if p[1] != '_':
            inside[p[1]] = given[-1]
    body = expression(m, inside, e[2])
    return f'(({",".join(given)})=>{f"({body})" if body.startswith("{") else body})'


def of_record(m, env, e):
    fields = ','.join(f'{name}:{delayed(m, env, x)}' for name, x in e[2])
    return '({%s})' % fields if e[1] is None else '({...%s,%s})' % (expression(m, env, e[1]), fields)


def of_statements(m, env, e):
    return f'(()=>{{{statements(m, env, e)}}})()'


def of_pair(m, env, e):
    return '{p0:%s,p1:%s}' % (delayed(m, env, e[1]), delayed(m, env, e[2]))


EXPRESSIONS = {'num': lambda m, env, e: number(e[1]), 'var': of_name, 'get': of_field, 'app': of_call, 'op': of_operator,
               'if': of_choice, 'lam': of_lambda, 'pair': of_pair, 'rec': of_record,
               'let': of_statements, 'elim': of_statements, 'do': of_statements}


# -- statements that return the value

def statements(m, env, e):
    if e[0] == 'let':
        name = fresh(e[1])
        return f'const {name}={delayed(m, env, e[2])};{statements(m, env | {e[1]: name}, e[3])}'
    if e[0] == 'if':
        return f'if({expression(m, env, e[1])}){{{statements(m, env, e[2])}}}else{{{statements(m, env, e[3])}}}'
    if e[0] == 'elim':
        name = fresh('s')
        cases = [when(m, env, [(p, name)], lambda inside, x=x: statements(m, inside, x)) for p, x in e[2]]
        return f'const {name}={expression(m, env, e[1])};{"".join(cases)}throw new Error("no case in {m.id}");'
    if e[0] == 'do':
        out, env = '', dict(env)
        for name, x in e[1][:-1]:
            result = fresh('r')
            out += f'const {result}={expression(m, env, x)};if({result}.t==="Err")return {result};'
            if name is not None:
                env[name] = f'{result}.p0'
        return out + statements(m, env, e[1][-1][1])
    return f'return {expression(m, env, e)};'


def meaning_of(m, name):
    """What a name in a pattern means: a constructor, a primitive, or anything else, which is bound."""
    if '.' in name:
        module, name = name.split('.')
        return resolve_in(m.alias[module], name)
    return ('con', name, CON[name]) if name in CON and name not in m.cons else resolve(m, name)


def test(m, p, value):
    """How a pattern that is no name to bind is tested: JavaScript that opens blocks, how many, and the parts to go on with."""
    if p[0] == 'pn':
        return f'if(F({value})==={number(p[1])}){{', 1, []
    name = fresh('v')
    if p[0] == 'pp':
        return f'{{const {name}=F({value});', 1, [(p[1], name + '.p0'), (p[2], name + '.p1')]
    r, args = meaning_of(m, p[1]), p[2]
    if r == ('prim', 'tt'):
        return '', 0, []
    if r == ('prim', 'suc'):
        return f'if(F({value})!==0){{const {name}=PRED(F({value}));', 1, [(args[0], name)]
    if r[0] == 'prim':
        return f'if(F({value})==={PRIMITIVES[r[1]]}){{', 1, []
    if r[0] != 'con' or len(args) != r[2]:
        raise SyntaxError(f'{m.id}: the pattern {p} is not known: {r}')
    return f'{{const {name}=F({value});if({name}.t==={r[1]!r}){{', 2, [(a, f'{name}.p{i}') for i, a in enumerate(args)]


def when(m, env, pairs, body):
    """Tests patterns against values, binds their names, and goes on with the body where all hold."""
    env, work, code, depth = dict(env), list(pairs), '', 0
    while work:
        p, value = work.pop(0)
        if p[0] == 'pv':
            if p[1] == '_':
                continue
            if meaning_of(m, p[1])[0] not in ('con', 'prim'):
                env[p[1]] = value
                continue
            p = ('pc', p[1], [])
        opens, blocks, parts = test(m, p, value)
        code, depth, work = code + opens, depth + blocks, parts + work
    return code + body(env) + '}' * depth


# -- functions

def clauses_of(m, name):
    """The clauses of a function, all with as many arguments."""
    if (m.id, name) not in parsed:
        found = parsed[m.id, name] = [clause_of(toks, i) for toks, i in m.funs[name]]
        if len({len(pats) for pats, _, _ in found}) != 1:
            raise SyntaxError(f'{m.id}: {name} has no clauses, or clauses with unlike numbers of arguments')
    return parsed[m.id, name]


def arity_of(r):
    return len(clauses_of(r[1], r[2])[0][0])


def clause_of(toks, i):
    """Patterns, body and the functions after `where` of a clause; i is where the function's name stands."""
    p, pats = Parser(toks), []
    p.i = i + 1
    while not (p.raw().v == '=' and p.raw().k == 'op'):
        if p.raw().v == '{':
            p.pass_braces()
        else:
            pats.append(p.pattern_atom())
    p.next()
    body, inner = p.expr(0), {}
    if p.raw() is None:
        return pats, body, inner
    if p.raw().v != 'where':
        raise SyntaxError(f'{p.raw()} is left of a clause of {toks[i]}')
    rest, groups = toks[p.i + 1:], []
    for t in rest:
        if t.first and t.col == rest[0].col:
            groups.append([])
        groups[-1].append(t)
    for group in groups:
        clauses = inner.setdefault(group[0].v, [])
        if group[1].v != ':':
            clauses.append(clause_of(group, 0))
    return pats, body, inner


def function(m, env, name, clauses):
    """The JavaScript of a function, or of a value that is computed once."""
    given, code = [fresh('a') for _ in clauses[0][0]], ''
    for pats, body, inner in clauses:
        def within(env, body=body, inner=inner):
            env = env | {word: fresh(word) for word in inner}
            before = ''.join(f'const {env[word]}={function(m, env, word, found)};' for word, found in inner.items())
            return before + statements(m, env, body)
        code += '{' + when(m, env, list(zip(pats, given)), within) + '}'
    code += f'throw new Error("no case: {name}");'
    return f'function({",".join(given)}){{{code}}}' if given else f'new T(()=>{{{code}}})'


def translated(roots):
    """The JavaScript of the functions that are named, (path, name) each, and of all that they rest on."""
    code, done = [], set()
    for path, name in roots:
        r = resolve_in(path, name)
        if r[0] != 'fun':
            raise SyntaxError(f'{path} has no function {name}')
        wanted.append(r[1:])
    while wanted:
        m, name = wanted.pop()
        if (m.id, name) not in done:
            done.add((m.id, name))
            code.append(f'G.{mangled(f"{m.id}${name}")}={function(m, {}, f"{m.id}.{name}", clauses_of(m, name))};')
    return '\n'.join(code), len(done)

"""The words of the ghost language of `crates/*/specs`, and the trees of its expressions and patterns.

A tree is a tuple that begins with what it is: `num`, `str`, `var`, `app`, `op`, `if`, `lam`, `let`, `do`, `elim`, `get`
(a field), `rec` (a record), `pair`; of patterns `pv` (a name), `pn` (a number), `pc` (a constructor), `pp` (a pair).
"""
import re

TOKEN = re.compile(r'''
 (?P<ws>[ \t]+)|(?P<nl>\n)|(?P<com>--[^\n]*)
|(?P<str>"(?:\\.|[^"\\])*")
|(?P<num>0x[0-9A-Fa-f_]+|[0-9][0-9_]*)
|(?P<field>(?<=[A-Za-z0-9_)\]])\.[A-Za-z0-9_]+)
|(?P<nil>\[\])
|(?P<id>◌[^ ,}]*◌|[A-Za-z_ℕℤ⊤⊥¬][A-Za-z0-9_ℕℤ']*)
|(?P<op>>>=|>>|-ℤ|\+ℤ|\*ℤ|≤ℤ|<ℤ|\+\+|==|&&|\|\||[∷+\-*/%^<≤=≡×⊎↔≢])
|(?P<sym>[()\[\]{},;λ↦←→:|.])
''', re.X)

# How strongly an operator binds, and whether it begins again on its right.
OPERATORS = {'>>=': (20, 0), '>>': (20, 0), '||': (30, 0), '&&': (35, 0), '==': (40, 0), '≡': (45, 0), '≢': (45, 0),
             '<': (50, 0), '≤': (50, 0), '≤ℤ': (50, 0), '+': (65, 0), '-': (65, 0), '++': (65, 1), '∷': (67, 1),
             '*': (70, 0), '/': (70, 0), '%': (70, 0), '^': (75, 1), '+ℤ': (6, 0), '-ℤ': (6, 0), '*ℤ': (7, 0),
             '×': (10, 1), '⊎': (9, 1), '↔': (1, 0)}


class Token:
    """A word: its kind and text, where it stands, whether it is the first of its line, and follows the one before at once."""

    def __init__(self, k, v, line, col, first, adjacent):
        self.k, self.v, self.line, self.col, self.first, self.adjacent = k, v, line, col, first, adjacent

    def __repr__(self):
        return f'{self.k}:{self.v}@{self.line}:{self.col}'


def tokens(text, line=1):
    """The words of a text, without blanks and comments."""
    out, pos, start, first, adjacent = [], 0, 0, True, False
    while pos < len(text):
        m = TOKEN.match(text, pos)
        if not m:
            raise SyntaxError(f'{line}: {text[pos:pos + 30]!r}')
        if m.lastgroup == 'nl':
            line, start, first, adjacent = line + 1, m.end(), True, False
        elif m.lastgroup == 'ws':
            adjacent = False
        elif m.lastgroup != 'com':
            out.append(Token(m.lastgroup, m.group(), line, pos - start, first, adjacent))
            first, adjacent = False, True
        pos = m.end()
    return out


class Parser:
    """Reads trees. A word at a line's beginning that is not indented further than `indents` says ends what is being read."""

    def __init__(self, toks):
        self.t, self.i, self.indents = toks, 0, [-1]

    def raw(self):
        return self.t[self.i] if self.i < len(self.t) else None

    def peek(self):
        t = self.raw()
        return None if t is None or t.first and t.col <= self.indents[-1] else t

    def next(self):
        self.i += 1
        return self.t[self.i - 1]

    def at(self, v):
        t = self.peek()
        return t is not None and t.v == v and t.k != 'str'

    def need(self, v):
        if self.raw() is None or self.raw().v != v:
            raise SyntaxError(f'wanted {v} at {self.raw()}')
        self.i += 1

    def pass_braces(self):
        """An implicit argument, which nothing is computed by."""
        depth = 0
        while True:
            v = self.next().v
            depth += (v == '{') - (v == '}')
            if depth == 0:
                return

    # -- expressions

    def expr(self, least=0):
        t = self.peek()
        if t is None:
            raise SyntaxError(f'no expression before {self.raw()}')
        begins = {'if': self.choice, 'λ': self.function, 'let': self.binding, 'do': self.block}
        if t.v in begins and t.k != 'str':
            return begins[t.v]()
        left = self.application()
        while True:
            t = self.peek()
            if t is None or t.k != 'op' or t.v not in OPERATORS or OPERATORS[t.v][0] < least:
                return left
            binds, again = OPERATORS[self.next().v]
            left = ('op', t.v, left, self.expr(binds if again else binds + 1))

    def choice(self):
        self.next()
        condition = self.expr(5)
        self.need('then')
        yes = self.expr(5)
        self.need('else')
        return ('if', condition, yes, self.expr(0))

    def function(self):
        self.next()
        given = []
        while not self.at('.'):
            given.append(self.pattern_atom())
        self.need('.')
        return ('lam', given, self.expr(0))

    def binding(self):
        self.next()
        name = self.next().v
        self.need('=')
        value = self.expr(0)
        self.need('in')
        return ('let', name, value, self.expr(0))

    def block(self):
        """`do`: statements of one column, `name ← expression` or an expression."""
        self.next()
        col, found = self.raw().col, []
        self.indents.append(col)
        while True:
            t = self.raw()
            if t is None or t.col != col or found and not t.first:
                break
            first, t.first = t.first, False
            name = None
            if t.k == 'id' and self.i + 1 < len(self.t) and self.t[self.i + 1].v == '←':
                name = self.next().v
                self.next()
            found.append((name, self.expr(0)))
            t.first = first
        self.indents.pop()
        return ('do', found)

    def application(self):
        f, args = self.atom(), []
        while True:
            t = self.peek()
            if t is not None and t.v == 'λ':
                args.append(self.expr(0))
                break
            if t is not None and t.k == 'id' and t.v == 'do':
                args.append(self.block())
                break
            if t is None or not begins_atom(t):
                break
            if t.v == '{':
                self.pass_braces()
            else:
                args.append(self.atom())
        return ('app', f, args) if args else f

    def atom(self):
        t = self.next()
        if t.k == 'num':
            return ('num', int(t.v.replace('_', ''), 0))
        if t.k == 'str':
            return ('str', bytes(t.v[1:-1], 'utf-8').decode('unicode_escape').encode('latin-1'))
        if t.k == 'nil':
            return ('var', '[]')
        if t.v == 'record':
            return self.fields_of(self.record())
        if t.v == 'elim':
            return self.elimination()
        if t.v == '(':
            found = self.inside(lambda: self.expr(0))
            e = found.pop()
            while found:
                e = ('pair', found.pop(), e)
            return self.fields_of(e)
        if t.k == 'id':
            return self.fields_of(('var', t.v))
        raise SyntaxError(f'no expression begins with {t}')

    def fields_of(self, e):
        """An expression with the fields that are taken of it."""
        while self.peek() is not None and self.peek().k == 'field' and self.peek().adjacent:
            e = ('get', e, self.next().v[1:])
        return e

    def record(self):
        base = None if self.raw().v == '{' else self.atom()
        self.need('{')
        self.indents.append(-1)
        found = []
        while self.raw().v != '}':
            name = self.next().v
            self.need('=')
            found.append((name, self.expr(0)))
            if self.raw().v == ';':
                self.next()
        self.need('}')
        self.indents.pop()
        return ('rec', base, found)

    def elimination(self):
        value = self.atom()
        self.need('[')
        self.indents.append(-1)
        found = []
        if self.raw().v == '|':
            self.next()
        while True:
            p = self.pattern()
            self.need('↦')
            found.append((p, self.expr(0)))
            if self.raw().v != '|':
                break
            self.next()
        self.need(']')
        self.indents.pop()
        return ('elim', value, found)

    def inside(self, one):
        """What stands between brackets, with commas between."""
        self.indents.append(-1)
        found = [one()]
        while self.raw().v == ',':
            self.next()
            found.append(one())
        self.need(')')
        self.indents.pop()
        return found

    # -- patterns

    def pattern_atom(self):
        t = self.next()
        if t.k == 'num':
            return ('pn', int(t.v.replace('_', ''), 0))
        if t.k == 'nil':
            return ('pc', '[]', [])
        if t.v == '(':
            found = self.inside(self.pattern)
            p = found.pop()
            while found:
                p = ('pp', found.pop(), p)
            return p
        if t.k == 'id':
            follows = self.raw()
            if follows is not None and follows.k == 'field' and follows.adjacent:
                return ('pv', t.v + self.next().v)
            return ('pv', t.v)
        raise SyntaxError(f'no pattern begins with {t}')

    def pattern(self):
        p, args = self.pattern_atom(), []
        while self.peek() is not None and (self.peek().k in ('num', 'nil', 'id') or self.peek().v == '('):
            args.append(self.pattern_atom())
        if args:
            p = ('pc', p[1], args)
        if self.at('∷'):
            self.next()
            p = ('pc', '∷', [p, self.pattern()])
        return p


def begins_atom(t):
    """Whether an argument begins with a word."""
    if t.k == 'id':
        return t.v not in ('then', 'else', 'in', 'where', 'if', 'let')
    return t.k in ('num', 'str', 'nil') or t.v in ('(', '{')

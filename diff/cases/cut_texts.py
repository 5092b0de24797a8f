#!/usr/bin/env python3
"""Reads texts token by token, from the Ion specification alone, and writes rows of a test. It shares nothing with `crates/`.

usage: diff/cases/cut_texts.py [--choose N] [--longest N] [--each N]

The texts are those of tests/cases, catalogues among them. Of each that is no binary a row is printed, as those of
`crates/ion_text_tests/src/reading/drawn.rt`: the limit on scalars (1048576, or that of the words), the text, and its items in
words. --choose takes N rows, half of them with faults, each fault in turn, that show the most kinds of tokens and bytes
one after another, --longest texts of at most N bytes (400), --each puts N rows into one constant (40). Nothing of the
crates is read or run.
"""
import base64, calendar, json, os, re, subprocess, sys

TESTS = os.path.join(os.path.dirname(os.path.abspath(__file__)), '..', '..', 'tests')
sys.path.insert(0, TESTS)
import answers

WHITE = b' \t\n\v\f\r'
OPERATOR = b'!#%&*+-./;<=>?@^`|~'
STOPS = b'{}[](),"\'' + WHITE
NAME = b'ABCDEFGHIJKLMNOPQRSTUVWXYZabcdefghijklmnopqrstuvwxyz_$0123456789'
TYPES = 'null bool int float decimal timestamp symbol string clob blob list sexp struct'.split()
LETTERS = dict(zip(b'abtnfrv0?"\'\\/', b'\a\b\t\n\f\r\v\0?"\'\\/'))
HEX = b'0123456789abcdefABCDEF'

D = rb'(?:0|[1-9](?:_?[0-9])*)'
FRACTION = rb'(?:\.((?:[0-9](?:_?[0-9])*)?))'
INT = re.compile(rb'(-?)(?:(' + D + rb')|0[xX]([0-9a-fA-F](?:_?[0-9a-fA-F])*)|0[bB]([01](?:_?[01])*))\Z')
DECIMAL = re.compile(rb'(-?)(' + D + rb')(?:' + FRACTION + rb'|' + FRACTION + rb'?[dD]([+-]?[0-9]+))\Z')
FLOAT = re.compile(rb'-?' + D + FRACTION + rb'?[eE][+-]?[0-9]+\Z')
TIMESTAMP = re.compile(rb'(\d{4})(?:T|-(\d\d)(?:T|-(\d\d)(?:T?|T(\d\d):(\d\d)(?::(\d\d)(?:\.(\d+))?)?(Z|[+-]\d\d:\d\d))))\Z')


class Refused(Exception):
    pass


def blanks(text, at):
    """Where blanks end, and whether a comment among them does not (then where it begins)."""
    while at < len(text):
        if text[at] in WHITE:
            at += 1
        elif text.startswith(b'//', at):
            while at < len(text) and text[at] not in b'\n\r':
                at += 1
        elif text.startswith(b'/*', at):
            end = text.find(b'*/', at + 2)
            if end < 0:
                return at, True
            at = end + 2
        else:
            break
    return at, False


def white(text, at):
    while at < len(text) and text[at] in WHITE:
        at += 1
    return at


def hexes(text, at, count, bad):
    for i in range(at, at + count):
        if i >= len(text):
            raise Refused('Truncated')
        if text[i] not in HEX:
            raise Refused(bad)
    return int(text[at:at + count], 16)


def escape(text, at, clob, bad):
    """What is after a backslash: the bytes that it means, and where it ends."""
    if at >= len(text):
        raise Refused('Truncated')
    letter = text[at]
    if letter in b'\n\r':
        return b'', at + (2 if text.startswith(b'\r\n', at) else 1)
    if letter in LETTERS:
        return bytes([LETTERS[letter]]), at + 1
    count = {ord('x'): 2}.get(letter) or (not clob and {ord('u'): 4, ord('U'): 8}.get(letter))
    if not count:
        raise Refused(bad)
    code, at = hexes(text, at + 1, count, bad), at + 1 + count
    if clob:
        return bytes([code]), at
    if count == 4 and 0xD800 <= code < 0xDC00:
        for want in b'\\u':
            if at >= len(text):
                raise Refused('Truncated')
            if text[at] != want:
                raise Refused(bad)
            at += 1
        low = hexes(text, at, 4, bad)
        if not 0xDC00 <= low < 0xE000:
            raise Refused(bad)
        code, at = 0x10000 + ((code & 0x3FF) << 10 | low & 0x3FF), at + 4
    if 0xD800 <= code < 0xE000 or code > 0x10FFFF:
        raise Refused(bad)
    return chr(code).encode(), at


def quoted(text, at, closer, clob, limit):
    """The bytes between quotes from after the opening ones on, where they end, and whether a comment after is open."""
    bad, long, out = 'BadLob' if clob else 'BadText', len(closer) == 3, b''
    while True:
        first = len(out)
        while not text.startswith(closer, at):
            if at >= len(text):
                raise Refused('Truncated')
            byte = text[at]
            if byte == ord('\\'):
                piece, at = escape(text, at + 1, clob, bad)
            elif long and byte in b'\n\r':
                piece, at = b'\n', at + (2 if text.startswith(b'\r\n', at) else 1)
            elif (byte >= 32 or byte in b'\t\v\f') and not (clob and byte > 127):
                piece, at = bytes([byte]), at + 1
            else:
                raise Refused(bad)
            if len(out) + len(piece) > limit:
                raise Refused('ScalarLimit')
            out += piece
        at += len(closer)
        if not clob:
            try:
                out[first:].decode()
            except UnicodeDecodeError:
                raise Refused(bad)
        if not long:
            return out, at, False
        at, cut = (white(text, at), False) if clob else blanks(text, at)
        if cut or not text.startswith(closer, at):
            return out, at, cut
        at += 3


def braces(text, at):
    for i in range(at, at + 2):
        if i >= len(text):
            raise Refused('Truncated')
        if text[i] != ord('}'):
            raise Refused('BadLob')
    return at + 2


def lob(text, at, limit):
    at = white(text, at)
    if text.startswith(b'"', at):
        out, at, _ = quoted(text, at + 1, b'"', True, limit)
        return 'clob ' + out.hex(), braces(text, white(text, at))
    if text.startswith(b"'''", at):
        out, at, _ = quoted(text, at + 3, b"'''", True, limit)
        if text[at:] in (b"'", b"''"):
            raise Refused('Truncated')
        return 'clob ' + out.hex(), braces(text, at)
    out, padded = b'', False
    while True:
        group = b''
        while len(group) < 4:
            at = white(text, at)
            if at >= len(text) or text[at] == ord('}'):
                at = braces(text, at)
                if group:
                    raise Refused('BadLob')
                return 'blob ' + out.hex(), at
            group, at = group + text[at:at + 1], at + 1
        try:
            octets = base64.b64decode(group, validate=True)
        except ValueError:
            raise Refused('BadLob')
        if padded or base64.b64encode(octets) != group:
            raise Refused('BadLob')
        if len(out) + len(octets) > limit:
            raise Refused('ScalarLimit')
        out, padded = out + octets, len(octets) < 3


def in_years(year, month, day, minutes):
    """Whether a moment, in minutes of a day, is one of the years 1 to 9999."""
    if minutes < 0 and (year, month, day) == (1, 1, 1):
        return False
    return not (minutes >= 1440 and (year, month, day) == (9999, 12, 31))


def number(run):
    found = INT.match(run)
    if found:
        sign, ten, sixteen, two = found.groups()
        value = int((ten or sixteen or two).replace(b'_', b''), 10 if ten else 16 if sixteen else 2)
        if value >= 1 << 128:
            raise Refused('Range')
        return f"int {'-' if sign and value else ''}{value}"
    found = DECIMAL.match(run)
    if found:
        sign, whole, point, other, exponent = found.groups()
        digits = (point or other or b'').replace(b'_', b'')
        value, power = int(whole.replace(b'_', b'') + digits), int(exponent or 0) - len(digits)
        if value >= 1 << 128 or not -(1 << 31) < power < 1 << 31:
            raise Refused('Range')
        return f"decimal {'-' if sign else ''}{value}d{power}"
    if FLOAT.match(run):
        raise Refused('Float')
    found = TIMESTAMP.match(run)
    if not found:
        raise Refused('BadToken')
    *parts, fraction, offset = found.groups()
    if fraction and len(fraction) > 38:
        raise Refused('Range')
    told = [int(part) for part in parts if part is not None]
    year, month, day, hour, minute, second = told + [1, 1, 1, 0, 0, 0][len(told):]
    shift = None
    if offset and offset != b'-00:00':
        shift = 0
        if offset != b'Z':
            hours, minutes = int(offset[1:3]), int(offset[4:6])
            if hours > 23 or minutes > 59:
                raise Refused('BadTimestamp')
            shift = (60 * hours + minutes) * (-1 if offset[:1] == b'-' else 1)
    if not (year and 1 <= month <= 12 and 1 <= day <= calendar.monthrange(max(year, 1), month)[1]):
        raise Refused('BadTimestamp')
    if hour > 23 or minute > 59 or second > 59 or not in_years(year, month, day, 60 * hour + minute - (shift or 0)):
        raise Refused('BadTimestamp')
    names = ['year', 'month', 'day', 'hour', 'minute', 'second']
    precision = f'fraction({len(fraction)})' if fraction else names[len(told) - 1]
    fields = ' '.join(map(str, (year, month, day, hour, minute, second, int(fraction or 0))))
    return f"timestamp {precision} {fields} {'none' if shift is None else shift}"


def word(run):
    known = {b'true': 'true', b'false': 'false', b'nan': 'nan', b'null': 'null.null'}
    if run in known:
        return known[run]
    if run.startswith(b'null.'):
        if run[5:].decode() not in TYPES:
            raise Refused('BadToken')
        return run.decode()
    if re.match(rb'\$[0-9]+\Z', run):
        return f'id {min(int(run[1:]), 1 << 31)}'
    return 'name ' + run.hex()


def run_end(text, at, goes_on):
    while at < len(text) and goes_on(text[at]) and text[at:at + 2] not in (b'//', b'/*'):
        at += 1
    return at


def token(text, at, in_sexp, limit):
    """What the token at a place means, where it ends, and whether a comment is open there."""
    byte, two = text[at:at + 1], text[at:at + 2]

    def run(end, means):
        if end - at > limit:
            raise Refused('ScalarLimit')
        return means(text[at:end]), end, False

    if byte.isdigit() or (byte == b'-' and two[1:].isdigit()):
        return run(run_end(text, at + 1, lambda b: b not in STOPS), number)
    if byte in b'"':
        out, at, _ = quoted(text, at + 1, b'"', False, limit)
        return 'string ' + out.hex(), at, False
    if text.startswith(b"'''", at):
        out, at, cut = quoted(text, at + 3, b"'''", False, limit)
        return 'string ' + out.hex(), at, cut
    if byte == b"'":
        out, at, _ = quoted(text, at + 1, b"'", False, limit)
        return 'symbol ' + out.hex(), at, False
    if two == b'{{':
        told, at = lob(text, at + 2, limit)
        return told, at, False
    if byte in NAME:
        end = at
        while end < len(text) and text[end] in NAME:
            end += 1
        if text[at:end] == b'null' and text[end:end + 1] == b'.':
            end += 1
            while end < len(text) and text[end] in NAME:
                end += 1
        return run(end, word)
    if text[at:at + 4] in (b'+inf', b'-inf') and (at + 4 >= len(text) or text[at + 4] not in NAME):
        return run(at + 4, lambda run: 'inf')
    if in_sexp and byte in OPERATOR:
        return run(run_end(text, at + 1, lambda b: b in OPERATOR), lambda run: 'operator ' + run.hex())
    if two == b'::':
        return '::', at + 2, False
    if byte in b'{}[](),:':
        return byte.decode(), at + 1, False
    raise Refused('no token')


def cut(text, limit):
    """The tokens of a text, each after its place, up to its end or the first fault."""
    words, at, opened = [], 0, []
    while True:
        at, is_cut = blanks(text, at)
        if is_cut:
            return words + [f'{at} Truncated']
        if at >= len(text):
            return words + [f'{at} end']
        try:
            told, end, is_cut = token(text, at, opened[-1:] == ['('], limit)
        except Refused as refused:
            return words + [f'{at} {refused}']
        words.append(f'{at} {told}')
        if told in '[({':
            opened.append(told)
        elif told in '])}':
            opened = opened[:-1]
        if is_cut:
            return words + [f'{end} Truncated']
        at = end


SYMBOLS = ('name', 'symbol', 'id')
BRACKETS = {'[': 'list', '(': 'sexp', '{': 'struct'}
CLOSERS = {'[': ']', '(': ')', '{': '}'}


def symbol(told, place):
    """A symbol's words: its text, each byte as a letter of its own, or its id, and its place."""
    kind, _, rest = told.partition(' ')
    name = rest if kind == 'id' else "'" + bytes.fromhex(rest).decode('latin-1') + "'"
    return f'{name}@{place}'


def after(opened):
    """What is wanted after a value where these containers are open."""
    return 'comma' if opened[-1:] in (['['], ['{']) else 'value'


def starts_name(text, at):
    return text[at] in b'"\'' or (text[at] in NAME and not text[at:at + 1].isdigit())


def items(text, limit, depth=8):
    """The items of a text in words, each after its place and that of its value at top level, and how they end.

    A fault of a token is told where it may stand; else there is a bad token.
    """
    words, opened, wanted, field, annotations, cost, top = [], [], 'value', '', [], 0, 0
    tokens = [told.split(' ', 1) for told in cut(text, limit)]
    for i, (place, told) in enumerate(tokens):
        place, kind = int(place), told.split(' ')[0]
        here = opened[-1] if opened else ''
        closes = here and told == CLOSERS[here] and not (annotations or field)

        def give(head):
            nonlocal field, annotations, cost, top
            if not opened:
                top = annotations[0][0] if annotations else place
            notes = ''.join(note + ':: ' for _, note in annotations)
            words.append(f'{place}/{top} {field}{notes}{head}')
            field, annotations, cost = '', [], 0

        if told == 'end':
            return words + ['over' if not (opened or annotations or field) else f'Truncated at {place}']
        if told == 'Truncated' and text[place:place + 2] == b'/*':
            return words + [f'Truncated at {place}']
        bad = words + [f'BadToken at {place}']
        if closes:
            words.append(f'{place}/{top} end')
            opened.pop()
            wanted = after(opened)
        elif wanted == 'colon':
            if told != ':':
                return bad
            wanted = 'value'
        elif wanted == 'comma':
            if told != ',':
                return bad
            wanted = 'field' if here == '{' else 'value'
        elif wanted == 'field':
            if not starts_name(text, place) or kind in ('true', 'false', 'nan') or told.startswith('null.'):
                return bad
            if kind not in SYMBOLS + ('string',):
                return words + [f'{told} at {place}']
            field = symbol(told, place) + ': '
            wanted = 'colon'
        elif kind in SYMBOLS and i + 1 < len(tokens) and tokens[i + 1][1] == '::':
            rest = told.partition(' ')[2]
            cost += 16 + (0 if kind == 'id' else len(rest) // 2)
            if cost > limit:
                return words + [f'AnnotationLimit at {place}']
            annotations.append((place, symbol(told, place)))
            wanted = 'colons'
        elif wanted == 'colons':
            wanted = 'value'
        elif kind in ('nan', 'inf'):
            return words + [f'Float at {place}']
        elif told in BRACKETS:
            if len(opened) >= depth:
                return words + [f'DepthLimit at {place}']
            give('begin ' + BRACKETS[told])
            opened.append(told)
            wanted = 'field' if told == '{' else 'value'
        elif kind in SYMBOLS + ('operator',):
            version = kind == 'name' and not (opened or annotations) and re.match(
                rb'\$ion_[0-9]+_[0-9]+\Z', bytes.fromhex(told[5:]))
            if version and told[5:] != b'$ion_1_0'.hex():
                return words + [f'BadVersion at {place}']
            give('marker' if version else 'symbol ' + symbol(told, place))
            wanted = after(opened)
        elif kind in ('int', 'decimal', 'timestamp', 'string', 'clob', 'blob', 'true', 'false') or told.startswith('null.'):
            give(told)
            wanted = after(opened)
        elif told in ('::', ':', ',', ']', ')', '}', 'no token'):
            return bad
        else:
            return words + [f'{told} at {place}']


def literal(text):
    shown = {9: '\\t', 10: '\\n', 13: '\\r', 34: '\\"', 92: '\\\\'}
    return 'b"' + ''.join(shown.get(b) or (chr(b) if 32 <= b < 127 else f'\\x{b:02x}') for b in text) + '"'


def row_of(limit, text):
    told = '; '.join(items(text, limit))
    told = ''.join({34: '\\"', 92: '\\\\', 10: '\\n', 9: '\\t', 13: '\\r'}.get(ord(c)) or (
        c if 32 <= ord(c) < 127 else f'\\u{{{ord(c):x}}}') for c in told)
    return f'    ({limit}, {literal(text)}, "{told}"),'


def ending(row):
    """How a row's tokens end: `end`, `no token`, or a fault's name."""
    return row[2][-1].split(' ', 1)[1]


def choose(rows, count):
    """So many of the rows, half of them with faults, each fault in turn: the one that shows most for its length.

    A row shows kinds of tokens, kinds one after another, and bytes one after another, where all digits are one.
    """
    def shown(row):
        kinds = ['begin'] + [told.split()[1] for told in row[2]]
        read = re.sub(rb'[1-9]', b'1', row[1][:int(row[2][-1].split()[0]) + 8])
        return set(kinds) | set(zip(kinds, kinds[1:])) | set(zip(read, read[1:]))
    chosen, seen = [], set()
    left = [(row, shown(row)) for row in rows]
    faults = sorted({ending(row) for row in rows} - {'end'})
    turns = [end for fault in faults for end in (fault, 'end')]
    while left and len(chosen) < count:
        turn = turns[len(chosen) % len(turns)]
        fit = [of for of in left if ending(of[0]) == turn] or left
        best = max(fit, key=lambda of: len(of[1] - seen) / (12 + len(of[0][1])))
        left.remove(best)
        chosen.append(best[0])
        seen |= best[1]
    return chosen


def cases():
    """The cases of tests/cases."""
    listed = subprocess.run([sys.executable, f'{TESTS}/cases/run', '--list'], stdout=subprocess.PIPE, check=True).stdout.decode()
    return [json.loads(row.split(' ', 2)[2]) for row in listed.splitlines()]


def main(words):
    options = {'--choose': 0, '--longest': 400, '--each': 40}
    while words and words[0] in options:
        options[words[0]] = int(words[1])
        words = words[2:]
    if words:
        print(__doc__)
        return 2
    texts = {}
    for case in cases():
        args = case['words']
        limit = int(args[args.index('--scalar') + 1]) if '--scalar' in args else 1048576
        for text in (answers.bytes_of(case['input']), bytes.fromhex(case.get('catalog', ''))):
            if text and text[0] != 0xE0 and len(text) <= options['--longest']:
                texts[limit, text] = None
    rows = [(limit, text, cut(text, limit)) for limit, text in texts]
    rows = choose(rows, options['--choose']) if options['--choose'] else rows
    rows = [row_of(limit, text) for limit, text, _ in rows]
    each = options['--each']
    for i in range(0, len(rows), each):
        print(f'pub const PART_{i // each}: &[Row] = &[\n' + '\n'.join(rows[i:i + each]) + '\n];\n')
    print(f'// {len(rows)} rows', file=sys.stderr)
    return 0


if __name__ == '__main__':
    sys.exit(main(sys.argv[1:]))

'use strict';
// What the translated definitions stand on: values that are computed when they are asked for (T, F), numbers of any length, lists
// as chains, and the words of the kit's libraries, by hand: lists, UTF-8, decimal digits, base64, dates.

class T { constructor(f) { this.f = f; this.v = undefined; } }
function F(x) {
  while (x instanceof T) {
    if (x.f !== null) {
      const f = x.f, v = f();
      x.v = v instanceof T ? F(v) : v;
      x.f = null;
    }
    x = x.v;
  }
  return x;
}

// Constructors: without arguments, as functions, and of lists.
const G = {}, TT = { t: 'tt' }, NIL = { t: '[]' }, constants = new Map(), makers = new Map();
function C0(name) {
  if (!constants.has(name)) constants.set(name, { t: name });
  return constants.get(name);
}
function CONS(head, tail) { return { t: '∷', p0: head, p1: tail }; }
function CF(name, count) {
  const key = name + count;
  if (!makers.has(key)) {
    const one = (a) => ({ t: name, p0: a }), two = (a, b) => ({ t: name, p0: a, p1: b });
    const made = [null, one, two, (a, b, c) => ({ t: name, p0: a, p1: b, p2: c })][count];
    if (!made) throw new Error(`the constructor ${name} has ${count} arguments`);
    makers.set(key, made);
  }
  return makers.get(key);
}

// Calls with fewer or more arguments than the function has.
class Partial { constructor(f, args) { this.f = f; this.args = args; } }
function A(f, args) {
  f = F(f);
  for (;;) {
    if (f instanceof Partial) { args = f.args.concat(args); f = f.f; }
    if (args.length === f.length) return F(f(...args));
    if (args.length < f.length) return new Partial(f, args);
    const rest = args.slice(f.length);
    f = F(f(...args.slice(0, f.length)));
    args = rest;
  }
}

// Natural numbers: numbers while these are exact, and BigInt past that. Integers: `pos n`, and `negsuc n` for -1 - n.
const MOST = 9007199254740991;
const big = (x) => (typeof x === 'bigint' ? x : BigInt(x));
const small = (b) => (b <= BigInt(MOST) && b >= -BigInt(MOST) ? Number(b) : b);
const both = (a, b) => typeof a === 'number' && typeof b === 'number';
function ADD(a, b) { return both(a, b) && a + b <= MOST ? a + b : small(big(a) + big(b)); }
function SUB(a, b) {
  if (both(a, b)) return a > b ? a - b : 0;
  const r = big(a) - big(b);
  return r <= 0n ? 0 : small(r);
}
function MUL(a, b) { return both(a, b) && a * b <= MOST ? a * b : small(big(a) * big(b)); }
function DIV(a, b) {
  if (b === 0) throw new Error('division by 0');
  return both(a, b) ? Math.floor(a / b) : small(big(a) / big(b));
}
function MOD(a, b) {
  if (b === 0) throw new Error('division by 0');
  return both(a, b) ? a % b : small(big(a) % big(b));
}
function POW(a, b) { return small(big(a) ** big(b)); }
function PRED(a) { return typeof a === 'number' ? a - 1 : small(a - 1n); }
const SUC = (a) => ADD(F(a), 1);
const LE = (a, b) => (both(a, b) ? a <= b : big(a) <= big(b));
const isNumber = (x) => typeof x === 'number' || typeof x === 'bigint';
function EQ(a, b) {
  if (!isNumber(a) || !isNumber(b)) throw new Error('what is compared is no number');
  return a === b;
}
function signed(z) {
  z = F(z);
  return z.t === 'pos' ? big(F(z.p0)) : -1n - big(F(z.p0));
}
const integer = (b) => (b >= 0n ? { t: 'pos', p0: small(b) } : { t: 'negsuc', p0: small(-1n - b) });
function ADDZ(a, b) { return integer(signed(a) + signed(b)); }
function SUBZ(a, b) { return integer(signed(a) - signed(b)); }
function MULZ(a, b) { return integer(signed(a) * signed(b)); }

// Lists, results, options.
function onto(array, tail) {
  for (let i = array.length - 1; i >= 0; i--) tail = CONS(array[i], tail);
  return tail;
}
const LIST = (array) => onto(array, NIL);
function ARR(list) {
  const array = [];
  for (list = F(list); list.t === '∷'; list = F(list.p1)) array.push(list.p0);
  return array;
}
const BYTES = (list) => ARR(list).map(F);
function APP(a, b) {
  const front = ARR(a);
  return front.length === 0 ? F(b) : onto(front, b);
}
function BIND(r, f) { return r.t === 'Err' ? r : A(f, [r.p0]); }
function THEN(r, f) { return r.t === 'Err' ? r : f(); }
const NONE = C0('None'), SOME = (x) => ({ t: 'Some', p0: x });
function after(n, list) {
  n = F(n);
  for (list = F(list); n > 0 && list.t === '∷'; list = F(list.p1)) n--;
  return list;
}
function taken(n, list) {
  const array = [];
  n = F(n);
  for (list = F(list); n > 0 && list.t === '∷'; list = F(list.p1), n--) array.push(list.p0);
  return LIST(array);
}

// UTF-8, as the Unicode standard has it: no surrogates, nothing past 10FFFF, the shortest form.
function tailOf(c) {
  if (c >= 0xc2 && c <= 0xdf) return [1, 0x80, 0xbf];
  if (c >= 0xe0 && c <= 0xef) return [2, c === 0xe0 ? 0xa0 : 0x80, c === 0xed ? 0x9f : 0xbf];
  if (c >= 0xf0 && c <= 0xf4) return [3, c === 0xf0 ? 0x90 : 0x80, c === 0xf4 ? 0x8f : 0xbf];
  return null;
}
function isUtf8(b) {
  for (let i = 0; i < b.length; i++) {
    if (b[i] < 0x80) continue;
    const tail = tailOf(b[i]);
    if (tail === null || i + tail[0] >= b.length) return false;
    if (b[i + 1] < tail[1] || b[i + 1] > tail[2]) return false;
    for (let j = 2; j <= tail[0]; j++) if (b[i + j] < 0x80 || b[i + j] > 0xbf) return false;
    i += tail[0];
  }
  return true;
}
function utf8(c) {
  if (c < 0x80) return [c];
  if (c < 0x800) return [0xc0 | (c >> 6), 0x80 | (c & 63)];
  if (c < 0x10000) return [0xe0 | (c >> 12), 0x80 | ((c >> 6) & 63), 0x80 | (c & 63)];
  return [0xf0 | (c >> 18), 0x80 | ((c >> 12) & 63), 0x80 | ((c >> 6) & 63), 0x80 | (c & 63)];
}
const ascii = (text) => [...text].map((c) => c.charCodeAt(0));

// The standard alphabet of RFC 4648, padded, and the bits that are left over are 0.
const ALPHABET = 'ABCDEFGHIJKLMNOPQRSTUVWXYZabcdefghijklmnopqrstuvwxyz0123456789+/';
function encoded(b) {
  let s = '';
  for (let i = 0; i < b.length; i += 3) {
    const n = Math.min(3, b.length - i), v = (b[i] << 16) | ((b[i + 1] || 0) << 8) | (b[i + 2] || 0);
    s += ALPHABET[v >> 18] + ALPHABET[(v >> 12) & 63];
    s += (n > 1 ? ALPHABET[(v >> 6) & 63] : '=') + (n > 2 ? ALPHABET[v & 63] : '=');
  }
  return ascii(s);
}
function decoded(b) {
  if (b.length % 4) return null;
  const out = [];
  for (let i = 0; i < b.length; i += 4) {
    const pad = b[i + 3] !== 61 ? 0 : b[i + 2] === 61 ? 2 : 1;
    if (pad && i + 4 < b.length) return null;
    const v = b.slice(i, i + 4 - pad).map((c) => ALPHABET.indexOf(String.fromCharCode(c)));
    if (v.includes(-1) || (pad === 2 && v[1] & 15) || (pad === 1 && v[2] & 3)) return null;
    out.push((v[0] << 2) | (v[1] >> 4));
    if (pad < 2) out.push(((v[1] & 15) << 4) | (v[2] >> 2));
    if (pad < 1) out.push(((v[2] & 3) << 6) | v[3]);
  }
  return out;
}

const isLeap = (y) => y % 4 === 0 && (y % 100 !== 0 || y % 400 === 0);
const daysIn = (y, m) => [31, isLeap(y) ? 29 : 28, 31, 30, 31, 30, 31, 31, 30, 31, 30, 31][m - 1];

// Floats: `nan`, `inf s`, or `fin s m e`, which is m * 2 ^ e with an odd m or zero. Formats by the digits of a significand, the
// exponent of the greatest values, and the bits of a fraction.
const FORMATS = { binary32: [24, 127, 23], binary64: [53, 1023, 52] };
const FIN = CF('fin', 3), INF = CF('inf', 1), NAN = C0('nan');
const bitsIn = (n) => (n === 0n ? 0 : n.toString(2).length);
function fin(s, m, e) {
  if (m === 0n) return FIN(s, 0, integer(0n));
  while (m % 2n === 0n) { m /= 2n; e += 1; }
  return FIN(s, small(m), integer(BigInt(e)));
}
// The value nearest to num / den, the even one of two, and an infinity past the greatest.
function rounded(format, s, num, den) {
  const [digits, most] = FORMATS[format.t], low = most + digits - 2, n = num << BigInt(low);
  const k = Math.max(bitsIn(n / den) - digits, 0), u = den << BigInt(k), twice = 2n * (n % u);
  let q = n / u;
  if (twice > u || (twice === u && q % 2n === 1n)) q += 1n;
  return q << BigInt(k) < 1n << BigInt(low + most + 1) ? fin(s, q, k - low) : INF(s);
}
function fraction(x) {
  const m = big(F(x.p1)), e = signed(x.p2);
  return e < 0n ? [m, 1n << -e] : [m << e, 1n];
}
function fromBits(format, bits) {
  const [digits, most, width] = FORMATS[format.t], w = BigInt(width), n = big(bits), m = n % (1n << w);
  const e = Number((n >> w) % BigInt(2 * most + 2)), s = n >> w >= BigInt(2 * most + 2);
  if (e === 2 * most + 1) return m === 0n ? INF(s) : NAN;
  return e === 0 ? fin(s, m, 2 - most - digits) : fin(s, m + (1n << w), e + 1 - most - digits);
}
function toBits(format, x) {
  const [digits, most, width] = FORMATS[format.t], w = BigInt(width), full = BigInt(2 * most + 1) << w;
  if (x.t === 'nan') return small(full + (1n << (w - 1n)));
  const sign = F(x.p0) ? 1n << (BigInt(bitsIn(BigInt(2 * most + 1))) + w) : 0n;
  if (x.t === 'inf') return small(sign + full);
  const m = big(F(x.p1));
  if (m === 0n) return small(sign);
  const e = Number(signed(x.p2)) + bitsIn(m) - 1, least = Math.max(e, 1 - most) - (digits - 1);
  const units = m << (signed(x.p2) - BigInt(least));
  return small(sign + (e < 1 - most ? units : (BigInt(e + most - 1) << w) + units));
}
function nearestTo(format, s, digits, exponent) {
  const n = big(digits), size = exponent + BigInt(String(n).length);
  if (n === 0n || size < -400n) return fin(s, 0n, 0);
  if (size > 400n) return INF(s);
  return exponent < 0n ? rounded(format, s, n, 10n ** -exponent) : rounded(format, s, n * 10n ** exponent, 1n);
}
function isAlike(x, y) {
  return x.t === y.t && (x.t !== 'fin' || (F(x.p0) === F(y.p0) && EQ(F(x.p1), F(y.p1)) && signed(x.p2) === signed(y.p2)));
}

const N = {
  length: (l) => ARR(l).length, drop: after, take: taken, reverse: (l) => LIST(ARR(l).reverse()),
  replicate: (n, x) => LIST(new Array(F(n)).fill(x)),
  map: (f, l) => LIST(ARR(l).map((x) => new T(() => A(f, [x])))),
  filter: (f, l) => LIST(ARR(l).filter((x) => A(f, [x]))),
  flat_map: (f, l) => LIST(ARR(l).flatMap((x) => ARR(A(f, [x])))),
  fold: (f, a, l) => F(ARR(l).reduce((b, x) => A(f, [b, x]), a)),
  sum_by: (f, l) => ARR(l).reduce((s, x) => ADD(s, A(f, [x])), 0), sum: (l) => BYTES(l).reduce(ADD, 0),
  slice_get: (l, n) => { l = after(n, l); return l.t === '∷' ? SOME(l.p0) : NONE; },
  slice_index_or: (l, n, other) => { l = after(n, l); return F(l.t === '∷' ? l.p0 : other); },
  bytes_eq: (a, b) => { const x = BYTES(a), y = BYTES(b); return x.length === y.length && x.every((c, i) => c === y[i]); },
  nat_le: (a, b) => LE(F(a), F(b)), nat_lt: (a, b) => !LE(F(b), F(a)), nat_eq: (a, b) => EQ(F(a), F(b)),
  max: (a, b) => (LE(F(a), F(b)) ? F(b) : F(a)), min: (a, b) => (LE(F(a), F(b)) ? F(a) : F(b)), not: (b) => !F(b),
  is_some: (o) => F(o).t === 'Some', is_none: (o) => F(o).t === 'None',
  unwrap_or: (o, other) => { o = F(o); return F(o.t === 'Some' ? o.p0 : other); },
  option_map: (f, o) => { o = F(o); return o.t === 'Some' ? SOME(new T(() => A(f, [o.p0]))) : o; },
  option_and_then: (f, o) => { o = F(o); return o.t === 'Some' ? A(f, [o.p0]) : o; },
  is_utf8: (l) => isUtf8(BYTES(l)), encode_utf8: (c) => LIST(utf8(F(c))), decimal: (n) => LIST(ascii(String(F(n)))),
  standard: TT, encode_of: (e, l) => LIST(encoded(BYTES(l))),
  decoded_of: (e, l) => { const r = decoded(BYTES(l)); return r === null ? NONE : SOME(LIST(r)); },
  days_in_month: (y, m) => daysIn(Number(signed(y)), F(m)),
  days_from_civil: () => { throw new Error('days_from_civil is not computed'); },
  eqb: (a, b) => EQ(F(a), F(b)),
  from_be_bytes: (w, l) => BYTES(l).reduce((n, b) => ADD(MUL(n, 256), b), 0),
  to_be_bytes: (w, n) => {
    const count = F(w).t === 'w32' ? 4 : 8, all = big(F(n));
    return LIST(Array.from({ length: count }, (_, i) => Number((all >> BigInt(8 * (count - 1 - i))) % 256n)));
  },
  from_bits: (f, n) => fromBits(F(f), F(n)), of_bits: (f, n) => fromBits(F(f), F(n)), to_bits: (f, x) => toBits(F(f), F(x)),
  round: (f, s, n, d) => rounded(F(f), F(s), big(F(n)), big(F(d))),
  fits: (f, x) => { x = F(x); return x.t !== 'fin' || isAlike(x, rounded(F(f), F(x.p0), ...fraction(x))); },
  closest: (n, d) => {
    const a = big(F(n)), b = big(F(d)), q = a / b, twice = 2n * (a % b);
    return small(twice > b || (twice === b && q % 2n === 1n) ? q + 1n : q);
  },
  num: (x) => small(fraction(F(x))[0]), den: (x) => small(fraction(F(x))[1]),
  nearest_to_decimal: (f, s, n, e) => nearestTo(F(f), F(s), F(n), signed(e)),
  int_le: (a, b) => signed(a) <= signed(b), 'neg_ℤ': (a) => integer(-signed(a)),
};

//! The text writer: canonical text, or pretty text with each member on a line of its own.

use crate::common::*;
use crate::float;
use crate::simd;

pub struct TextWriter<'w, const PRETTY: bool> {
    pub o: Out<'w>,
    sep: u8,
    /// pretty text: the open containers, whether a line begins before the next token, and whether the innermost container has no
    /// member yet
    depth: usize,
    due: bool,
    empty: bool,
}

const SEP: [u8; 4] = [0, b',', b' ', b','];
const COMMA: [u8; 4] = [0, b',', 0, b','];

const fn lut() -> [u8; 200] {
    let mut t = [0u8; 200];
    let mut i = 0;
    while i < 100 {
        t[2 * i] = b'0' + (i / 10) as u8;
        t[2 * i + 1] = b'0' + (i % 10) as u8;
        i += 1;
    }
    t
}
static LUT: [u8; 200] = lut();

#[inline(always)]
unsafe fn two(p: *mut u8, n: usize) {
    debug_assert!(n < 100);
    std::ptr::copy_nonoverlapping(LUT.as_ptr().add(2 * n), p, 2);
}

/// Eight decimal digits of n, the first in the lowest byte, as numbers.
#[inline(always)]
fn eight(n: u32) -> u64 {
    let hi = (n / 10000) as u64;
    let lo = (n % 10000) as u64;
    let m = hi | lo << 32;
    let top = ((m * 10486) >> 20) & 0x0000_007f_0000_007f;
    let h = ((m - 100 * top) << 16) + top;
    let t = ((h * 103) >> 10) & 0x000f_000f_000f_000f;
    t + ((h - 10 * t) << 8)
}

/// Writes the digits of n: how many. Room of 24 bytes.
#[inline(always)]
unsafe fn put_digits(p: *mut u8, n: u64) -> usize {
    if n < 100_000_000 {
        return put_short(p, n as u32);
    }
    put_long(p, n)
}
#[inline(always)]
unsafe fn put_short(p: *mut u8, n: u32) -> usize {
    let d = eight(n);
    let skip = ((d | 1 << 56).trailing_zeros() / 8) as usize;
    (p as *mut u64).write_unaligned((d | 0x3030_3030_3030_3030) >> (8 * skip));
    8 - skip
}
#[inline(always)]
unsafe fn put_full(p: *mut u8, n: u32) {
    (p as *mut u64).write_unaligned(eight(n) | 0x3030_3030_3030_3030);
}
#[inline(never)]
unsafe fn put_long(p: *mut u8, n: u64) -> usize {
    let lo = (n % 100_000_000) as u32;
    let hi = n / 100_000_000;
    if hi < 100_000_000 {
        let l = put_short(p, hi as u32);
        put_full(p.add(l), lo);
        return l + 8;
    }
    let mid = (hi % 100_000_000) as u32;
    let l = put_short(p, (hi / 100_000_000) as u32);
    put_full(p.add(l), mid);
    put_full(p.add(l + 8), lo);
    l + 16
}

/// Writes exactly `len` digits.
#[inline(always)]
unsafe fn write_digits(p: *mut u8, mut n: u64, len: usize) {
    let mut i = len;
    while i >= 2 {
        i -= 2;
        two(p.add(i), (n % 100) as usize);
        n /= 100;
    }
    if i > 0 {
        *p = b'0' + n as u8;
    }
}

/// The digits of n: how many.
#[inline(always)]
pub fn u128_text(n: u128, buf: &mut [u8; 112]) -> usize {
    if n <= u64::MAX as u128 {
        return unsafe { put_digits(buf.as_mut_ptr(), n as u64) };
    }
    u128_slow(n, buf)
}
#[inline(never)]
fn u128_slow(n: u128, buf: &mut [u8; 112]) -> usize {
    const P: u128 = 10_000_000_000_000_000;
    unsafe {
        // 16 digits at a time
        let p = buf.as_mut_ptr();
        let lo = (n % P) as u64;
        let hi = n / P;
        let l = if hi <= u64::MAX as u128 {
            put_digits(p, hi as u64)
        } else {
            let mid = (hi % P) as u64;
            let l = put_digits(p, (hi / P) as u64);
            put_full(p.add(l), (mid / 100_000_000) as u32);
            put_full(p.add(l + 8), (mid % 100_000_000) as u32);
            l + 16
        };
        put_full(p.add(l), (lo / 100_000_000) as u32);
        put_full(p.add(l + 8), (lo % 100_000_000) as u32);
        l + 16
    }
}

static HEX: &[u8; 16] = b"0123456789abcdef";

/// The letter of a two-byte escape, or 0.
#[inline(always)]
fn letter(c: u8) -> u8 {
    match c {
        7 => b'a',
        8 => b'b',
        9 => b't',
        10 => b'n',
        13 => b'r',
        12 => b'f',
        11 => b'v',
        b'\\' => b'\\',
        _ => 0,
    }
}

impl<'w, const PRETTY: bool> TextWriter<'w, PRETTY> {
    pub fn new(o: Out<'w>) -> Self {
        TextWriter { o, sep: 0, depth: 0, due: false, empty: false }
    }

    /// Room for `n` more bytes and what stands before them.
    #[inline(always)]
    fn head(&mut self, n: usize) {
        self.o.need(n + 2 + if PRETTY { 2 * self.depth + 16 } else { 0 });
        self.o.push(self.sep);
        if self.sep == 0 {
            self.o.len -= 1;
        }
        if PRETTY && self.due {
            self.line();
            self.sep = 0;
            self.due = false;
        }
    }

    /// A new line and its blanks, for which there is room, and for 16 bytes more.
    #[inline(always)]
    fn line(&mut self) {
        self.o.push(b'\n');
        let n = 2 * self.depth;
        // SAFETY: there is room for n bytes and for 16
        unsafe {
            (self.o.ptr() as *mut [u8; 16]).write([b' '; 16]);
            if n > 16 {
                self.o.ptr().add(16).write_bytes(b' ', n - 16);
            }
        }
        self.o.len += n;
    }

    #[inline(always)]
    fn tail(&mut self, k: u8) -> Res {
        if PRETTY {
            self.sep = COMMA[k as usize];
            self.due = k != TOP;
            self.empty = false;
        } else {
            self.sep = SEP[k as usize];
        }
        if k == TOP {
            self.o.push(b'\n');
        }
        self.o.commit()
    }

    #[inline(always)]
    fn sym(&mut self, s: Sym) {
        if s.form == S_PLAIN {
            self.o.put(s.text);
        } else {
            self.sym_slow(s);
        }
    }

    #[inline(never)]
    fn sym_slow(&mut self, s: Sym) {
        self.o.need(s.text.len() + 8);
        match s.form {
            S_UNKNOWN => {
                self.o.push(b'$');
                self.o.push(b'0');
            }
            S_QUOTED => {
                self.o.push(b'\'');
                self.o.put(s.text);
                self.o.push(b'\'');
            }
            _ => {
                self.o.push(b'\'');
                self.escape(s.text, b'\'', false);
                self.o.push(b'\'');
            }
        }
    }

    /// `s` has the slack after it.
    fn escape(&mut self, s: &[u8], quote: u8, clob: bool) {
        self.o.need(s.len() + 64);
        let mut a = 0;
        loop {
            let n = unsafe { simd::copy_clean(s.as_ptr().add(a), self.o.ptr(), s.len() - a, quote, clob) };
            self.o.len += n;
            a += n;
            if a >= s.len() {
                break;
            }
            let c = s[a];
            a += 1;
            self.o.need(s.len() - a + 64);
            let l = if c == quote { quote } else { letter(c) };
            self.o.push(b'\\');
            if l != 0 {
                self.o.push(l);
            } else {
                self.o.push(b'x');
                self.o.push(HEX[(c >> 4) as usize]);
                self.o.push(HEX[(c & 15) as usize]);
            }
        }
    }

    #[inline(always)]
    fn put_u64(&mut self, neg: bool, mag: u64) {
        self.o.push(b'-');
        if !neg {
            self.o.len -= 1;
        }
        let l = unsafe { put_digits(self.o.ptr(), mag) };
        self.o.len += l;
    }

    fn put_decimal(&mut self, neg: bool, coef: u128, exp: i32) {
        if neg {
            self.o.push(b'-');
        }
        let mut b = [0u8; 112];
        let n = u128_text(coef, &mut b);
        if exp == 0 {
            self.o.put(&b[..n]);
            self.o.push(b'.');
        } else if (-38..0).contains(&exp) {
            let k = (-exp) as usize;
            if n > k {
                self.o.put(&b[..n - k]);
                self.o.push(b'.');
                self.o.put(&b[n - k..n]);
            } else {
                self.o.put_any(b"0.");
                for _ in n..k {
                    self.o.push(b'0');
                }
                self.o.put(&b[..n]);
            }
        } else {
            self.o.put(&b[..n]);
            self.o.push(b'd');
            self.put_u64(exp < 0, exp.unsigned_abs() as u64);
        }
    }

    #[inline(always)]
    fn put_ts(&mut self, t: &Ts) {
        unsafe {
            let p = self.o.ptr();
            two(p, t.year as usize / 100);
            two(p.add(2), t.year as usize % 100);
            if t.prec == P_YEAR {
                *p.add(4) = b'T';
                self.o.len += 5;
                return;
            }
            *p.add(4) = b'-';
            two(p.add(5), t.month as usize);
            if t.prec == P_MONTH {
                *p.add(7) = b'T';
                self.o.len += 8;
                return;
            }
            *p.add(7) = b'-';
            two(p.add(8), t.day as usize);
            if t.prec == P_DAY {
                self.o.len += 10;
                return;
            }
            *p.add(10) = b'T';
            two(p.add(11), t.hour as usize);
            *p.add(13) = b':';
            two(p.add(14), t.minute as usize);
            let mut n = 16;
            if t.prec >= P_SECOND {
                *p.add(16) = b':';
                two(p.add(17), t.second as usize);
                n = 19;
                if t.prec == P_FRACTION {
                    *p.add(19) = b'.';
                    let d = t.digits as usize;
                    if d <= 19 {
                        write_digits(p.add(20), t.frac as u64, d);
                    } else {
                        let hi = (t.frac / 10_000_000_000_000_000_000) as u64;
                        let lo = (t.frac % 10_000_000_000_000_000_000) as u64;
                        write_digits(p.add(20), hi, d - 19);
                        write_digits(p.add(20 + d - 19), lo, 19);
                    }
                    n = 20 + d;
                }
            }
            if !t.unknown && t.offset == 0 {
                *p.add(n) = b'Z';
                n += 1;
            } else {
                *p.add(n) = if t.unknown || t.offset < 0 { b'-' } else { b'+' };
                let o = if t.unknown { 0 } else { t.offset.unsigned_abs() as usize };
                two(p.add(n + 1), o / 60);
                *p.add(n + 3) = b':';
                two(p.add(n + 4), o % 60);
                n += 6;
            }
            self.o.len += n;
        }
    }
}

impl<'w, const PRETTY: bool> Handler for TextWriter<'w, PRETTY> {
    const GAPS: bool = false;

    #[inline(always)]
    fn field(&mut self, s: Sym, _: u64) {
        self.head(s.text.len() + 8);
        self.sym(s);
        self.o.need(2);
        self.o.push(b':');
        if PRETTY {
            self.o.push(b' ');
        }
        self.sep = 0;
    }
    #[inline(never)]
    fn ann(&mut self, s: Sym, _: u64) {
        self.head(s.text.len() + 8);
        self.sym(s);
        self.o.need(2);
        self.o.push(b':');
        self.o.push(b':');
        self.sep = 0;
    }
    fn null(&mut self, t: u8, at: At) -> Res {
        self.head(24);
        self.o.put_any(b"null");
        if t != 0 {
            self.o.push(b'.');
            self.o.put_any(TYPE_NAMES[t as usize].as_bytes());
        }
        self.tail(at.k)
    }
    #[inline(always)]
    fn boolean(&mut self, b: bool, at: At) -> Res {
        self.head(16);
        let w: u64 = if b { u64::from_le_bytes(*b"true\0\0\0\0") } else { u64::from_le_bytes(*b"false\0\0\0") };
        unsafe { (self.o.ptr() as *mut u64).write_unaligned(w) };
        self.o.len += 5 - b as usize;
        self.tail(at.k)
    }
    #[inline(always)]
    fn int(&mut self, neg: bool, mag: u64, at: At) -> Res {
        self.head(32);
        self.put_u64(neg, mag);
        self.tail(at.k)
    }
    #[inline(always)]
    fn int_raw(&mut self, raw: &[u8], _: bool, _: u64, at: At) -> Res {
        self.head(32);
        self.o.put(raw);
        self.tail(at.k)
    }
    fn int_big(&mut self, neg: bool, mag: u128, at: At) -> Res {
        self.head(64);
        if neg {
            self.o.push(b'-');
        }
        let mut b = [0u8; 112];
        let n = u128_text(mag, &mut b);
        self.o.put(&b[..n]);
        self.tail(at.k)
    }
    #[inline(always)]
    fn float(&mut self, x: f64, at: At) -> Res {
        self.head(32);
        let n = unsafe { float::put_text(self.o.ptr(), x, put_digits) };
        self.o.len += n;
        self.tail(at.k)
    }
    fn decimal(&mut self, neg: bool, coef: u128, exp: i32, at: At) -> Res {
        self.head(128);
        self.put_decimal(neg, coef, exp);
        self.tail(at.k)
    }
    #[inline(always)]
    fn timestamp(&mut self, t: &Ts, at: At) -> Res {
        self.head(96);
        self.put_ts(t);
        self.tail(at.k)
    }
    #[inline(always)]
    fn timestamp_raw(&mut self, raw: &[u8], _: &Ts, at: At) -> Res {
        self.head(raw.len() + 16);
        self.o.put(raw);
        self.tail(at.k)
    }
    #[inline(always)]
    fn symbol(&mut self, s: Sym, at: At) -> Res {
        self.head(s.text.len() + 8);
        self.sym(s);
        self.o.need(2);
        self.tail(at.k)
    }
    #[inline(always)]
    fn string(&mut self, s: &[u8], clean: bool, at: At) -> Res {
        self.head(s.len() + 64);
        self.o.push(b'"');
        if clean {
            self.o.put(s);
        } else {
            self.escape(s, b'"', false);
            self.o.need(4);
        }
        self.o.push(b'"');
        self.tail(at.k)
    }
    fn clob(&mut self, s: &[u8], at: At) -> Res {
        self.head(s.len() + 64);
        self.o.put_any(b"{{\"");
        self.escape(s, b'"', true);
        self.o.need(8);
        self.o.put_any(b"\"}}");
        self.tail(at.k)
    }
    fn blob(&mut self, s: &[u8], at: At) -> Res {
        self.head(s.len() / 3 * 4 + 64);
        self.o.put_any(b"{{");
        let n = unsafe { simd::base64_encode(s, self.o.ptr()) };
        self.o.len += n;
        self.o.put_any(b"}}");
        self.tail(at.k)
    }
    #[inline(always)]
    fn begin(&mut self, kind: u8, at: At) -> Res {
        let _ = at;
        self.head(4);
        self.o.push(b"\0[({"[kind as usize]);
        self.sep = 0;
        if PRETTY {
            self.depth += 1;
            self.due = true;
            self.empty = true;
        }
        self.o.commit()
    }
    #[inline(always)]
    fn end(&mut self, kind: u8, parent: u8) -> Res {
        if PRETTY {
            self.depth -= 1;
            self.o.need(2 * self.depth + 24);
            if !self.empty {
                self.line();
            }
        }
        self.o.need(4);
        self.o.push(b"\0])}"[kind as usize]);
        self.tail(parent)
    }
}

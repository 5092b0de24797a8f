//! Operators, and what begins as a number does.

use super::*;

impl TextReader<'_, '_> {
    #[inline(never)]
    pub(super) fn operator<H: Handler>(&mut self, h: &mut H) -> Res {
        let c = self.w.b(self.w.pos);
        let place = self.w.place(self.w.pos);
        if c == b'+' || c == b'-' {
            self.ensure(5)?;
            let p = self.w.pos;
            if self.w.b(p + 1) == b'i' && self.w.b(p + 2) == b'n' && self.w.b(p + 3) == b'f' && !is_ident_byte(self.w.b(p + 4)) {
                if self.lim.scalar < 4 {
                    return refuse(Reason::ScalarLimit, place);
                }
                return self.infinity(h, c, place);
            }
        }
        if self.k != SEXP {
            return refuse(Reason::BadToken, place);
        }
        let mut n = 0;
        loop {
            self.ensure(n + 2)?;
            let p = self.w.pos + n;
            let c = self.w.b(p);
            if !is_op(c) || (n > 0 && c == b'/' && matches!(self.w.b(p + 1), b'/' | b'*')) {
                break;
            }
            n += 1;
            if n as u64 > self.lim.scalar {
                return refuse(Reason::ScalarLimit, place);
            }
        }
        self.ready(h)?;
        let s = self.w.pos;
        h.symbol(Sym { text: self.w.slice(s, s + n), form: S_QUOTED }, self.at(s))?;
        self.w.pos += n;
        Ok(())
    }

    /// `+inf` or `-inf` at `pos`.
    fn infinity<H: Handler>(&mut self, h: &mut H, sign: u8, place: u64) -> Res {
        if !self.lim.floats {
            return refuse(Reason::Float, place);
        }
        self.ready(h)?;
        let x = if sign == b'+' { f64::INFINITY } else { f64::NEG_INFINITY };
        h.float(x, self.at(self.w.pos))?;
        self.w.pos += 4;
        Ok(())
    }

    #[inline(always)]
    pub(super) fn number<H: Handler>(&mut self, h: &mut H) -> Res {
        loop {
            let s = self.w.pos;
            let neg = self.w.b(s) == b'-';
            let d = s + neg as usize;
            // SAFETY: reads stay within the slack
            let load = |i: usize| unsafe { (self.w.ptr(i) as *const u64).read_unaligned() };
            // sixteen digits without a branch
            let (n1, v1) = eight(load(d));
            let (n2, v2) = eight(load(d + 8));
            let n2 = if n1 == 8 { n2 } else { 0 };
            let mut v = if n1 == 8 { v1 * P10[n2] + v2 } else { v1 };
            let mut n = n1 + n2;
            if n == 16 {
                let (n3, v3) = eight(load(d + 16));
                v = v.wrapping_mul(P10[n3]).wrapping_add(v3);
                n += n3;
            }
            let p = d + n;
            let c = self.w.b(p);
            if n <= 19 && (n == 1 || self.w.b(d) != b'0') {
                if TERM[c as usize] {
                    if (p - s) as u64 > self.lim.scalar {
                        return refuse(Reason::ScalarLimit, self.w.place(s));
                    }
                    self.ready(h)?;
                    let at = self.at(s);
                    if neg && v == 0 {
                        h.int(false, 0, at)?;
                    } else {
                        h.int_raw(self.w.slice(s, p), neg, v, at)?;
                    }
                    self.w.pos = p;
                    // the next number of a list at once
                    if c == b',' && self.k == LIST {
                        let q = p + 1 + (self.w.b(p + 1) == b' ') as usize;
                        let e = self.w.b(q);
                        if e.is_ascii_digit() || (e == b'-' && self.w.b(q + 1).is_ascii_digit()) {
                            self.w.pos = q;
                            continue;
                        }
                    }
                    return Ok(());
                }
                if n <= 10 && matches!(c, b'.' | b'd' | b'D') {
                    // a decimal of at most 18 digits and a short exponent
                    let mut q = p;
                    let mut places = 0;
                    let mut e = c;
                    if c == b'.' {
                        let (m, f) = eight(load(p + 1));
                        v = v * P10[m] + f;
                        places = m as i32;
                        q = p + 1 + m;
                        e = self.w.b(q);
                    }
                    let mut exp = 0;
                    if e | 0x20 == b'd' {
                        let s1 = self.w.b(q + 1);
                        let sign = (s1 == b'-' || s1 == b'+') as usize;
                        let (m, x) = eight(load(q + 1 + sign));
                        // none or eight digits: the slow way
                        exp = if s1 == b'-' { -(x as i32) } else { x as i32 };
                        q = if m == 0 || m == 8 { usize::MAX } else { q + 1 + sign + m };
                    }
                    if q != usize::MAX && TERM[self.w.b(q) as usize] && (q - s) as u64 <= self.lim.scalar {
                        self.ready(h)?;
                        h.decimal(neg, v as u128, exp - places, self.at(s))?;
                        self.w.pos = q;
                        return Ok(());
                    }
                }
            }
            if n == 4 && c == b'-' && !neg {
                if let Some((t, l, canonical)) = unsafe { ts_fast(self.w.ptr(s)) } {
                    if l as u64 <= self.lim.scalar {
                        self.ready(h)?;
                        let at = self.at(s);
                        if canonical {
                            h.timestamp_raw(self.w.slice(s, s + l), &t, at)?;
                        } else {
                            h.timestamp(&t, at)?;
                        }
                        self.w.pos = s + l;
                        return Ok(());
                    }
                }
            }
            if n >= 20 {
                return self.number_big(h);
            }
            return self.number_slow(h);
        }
    }

    /// A float of at most 19 digits and a short exponent; false leaves it to the slow way. It reads its first digits again, so
    /// that `number` need not keep their value where nothing else wants it.
    #[inline(always)]
    fn float<H: Handler>(&mut self, h: &mut H) -> Res<bool> {
        let s = self.w.pos;
        let d = s + (self.w.b(s) == b'-') as usize;
        let Some((digits, power, end)) = self.short_float(d) else { return Ok(false) };
        if (end - s) as u64 > self.lim.scalar {
            return refuse(Reason::ScalarLimit, self.w.place(s));
        }
        let x = match float::exact(digits, power) {
            Some(x) if d > s => -x,
            Some(x) => x,
            // SAFETY: signs, digits, a point and a letter
            None => unsafe { std::str::from_utf8_unchecked(self.w.slice(s, end)) }.parse().unwrap(),
        };
        if x.is_infinite() {
            return refuse(Reason::Range, self.w.place(s));
        }
        self.ready(h)?;
        h.float(x, self.at(s))?;
        self.w.pos = end;
        Ok(true)
    }

    /// The digits of such a float from `d` on, their power of ten and its end.
    #[inline(always)]
    fn short_float(&self, d: usize) -> Option<(u64, i64, usize)> {
        // SAFETY: a place up to the end and its slack
        let load = |i: usize| eight(unsafe { (self.w.ptr(i) as *const u64).read_unaligned() });
        let run = |mut p: usize, mut digits: u64| loop {
            let (m, part) = load(p);
            digits = digits.wrapping_mul(P10[m]).wrapping_add(part);
            p += m;
            if m < 8 || p - d > 24 {
                return (p, digits);
            }
        };
        let (mut p, mut digits) = run(d, 0);
        let (n, mut places) = (p - d, 0);
        if self.w.b(p) == b'.' {
            (p, digits) = run(p + 1, digits);
            places = p - d - n - 1;
        }
        let sign = self.w.b(p + 1);
        let first = p + 1 + (sign == b'-' || sign == b'+') as usize;
        let (m, exponent) = load(first);
        let end = first + m;
        let is_led_by_zero = n > 1 && self.w.b(d) == b'0';
        if self.w.b(p) | 0x20 != b'e' || m == 0 || m == 8 || n + places > 19 || is_led_by_zero || !TERM[self.w.b(end) as usize] {
            return None;
        }
        let exponent = if sign == b'-' { -(exponent as i64) } else { exponent as i64 };
        Some((digits, exponent - places as i64, end))
    }

    /// An int of 20 digits and more: up to 38 here, as they stay below 2^128.
    #[inline(never)]
    pub(super) fn number_big<H: Handler>(&mut self, h: &mut H) -> Res {
        let s = self.w.pos;
        let neg = self.w.b(s) == b'-';
        let d = s + neg as usize;
        let (mut p, mut m) = (d, 0u128);
        loop {
            // SAFETY: a place up to the end and the slack
            let (n, v) = eight(unsafe { (self.w.ptr(p) as *const u64).read_unaligned() });
            m = m.wrapping_mul(P10[n] as u128).wrapping_add(v as u128);
            p += n;
            if n < 8 {
                break;
            }
        }
        if p - d > 38 || self.w.b(d) == b'0' || !TERM[self.w.b(p) as usize] || (p - s) as u64 > self.lim.scalar {
            return self.number_slow(h);
        }
        self.ready(h)?;
        let at = self.at(s);
        if m <= u64::MAX as u128 {
            h.int(neg, m as u64, at)?;
        } else {
            h.int_big(neg, m, at)?;
        }
        self.w.pos = p;
        Ok(())
    }

    #[inline(never)]
    pub(super) fn number_slow<H: Handler>(&mut self, h: &mut H) -> Res {
        if self.lim.floats && self.float(h)? {
            return Ok(());
        }
        let mut n = 0;
        let place = self.w.place(self.w.pos);
        loop {
            let p = self.w.pos + n;
            let c = self.w.b(p);
            if TERM[c as usize] {
                break;
            }
            if p == self.w.end {
                if self.w.more(self.w.pos)? {
                    continue;
                }
                break;
            }
            if c == b'/' {
                self.ensure(n + 2)?;
                if matches!(self.w.b(self.w.pos + n + 1), b'/' | b'*') {
                    break;
                }
            }
            n += 1;
            if n as u64 > self.lim.scalar {
                return refuse(Reason::ScalarLimit, place);
            }
        }
        let s = self.w.pos;
        let num = match parse_run(self.w.slice(s, s + n), self.lim.floats) {
            Ok(x) => x,
            Err(r) => return refuse(r, place),
        };
        self.ready(h)?;
        let at = self.at(s);
        match num {
            Num::Int(neg, m) if m <= u64::MAX as u128 => h.int(neg, m as u64, at)?,
            Num::Int(neg, m) => h.int_big(neg, m, at)?,
            Num::Dec(neg, c, e) => h.decimal(neg, c, e, at)?,
            Num::Float(x) => h.float(x, at)?,
            Num::Ts(t) => h.timestamp(&t, at)?,
        }
        self.w.pos += n;
        Ok(())
    }
}

//! Strings, symbols in quotes, and lobs.

use super::*;

impl TextReader<'_, '_> {
    #[inline(always)]
    pub(super) fn string<H: Handler>(&mut self, h: &mut H) -> Res {
        let s = self.w.pos;
        let (n, high) = unsafe { simd::scan(self.w.ptr(s + 1), b'"') };
        if self.w.b(s + 1 + n) == b'"' && n as u64 <= self.lim.scalar {
            let t = self.w.slice(s + 1, s + 1 + n);
            if high && !simd::utf8(t) {
                return refuse(Reason::BadText, self.w.place(s));
            }
            self.ready(h)?;
            h.string(self.w.slice(s + 1, s + 1 + n), true, self.at(s))?;
            self.w.pos = s + n + 2;
            return Ok(());
        }
        self.string_slow(h, n)
    }

    #[inline(never)]
    pub(super) fn string_slow<H: Handler>(&mut self, h: &mut H, n: usize) -> Res {
        let s = self.w.pos;
        if s + 1 + n == self.w.end && n < 16384 && self.w.more(s)? {
            // cut by the window's end
            let (n, high) = unsafe { simd::scan(self.w.ptr(1), b'"') };
            if self.w.b(1 + n) == b'"' && n as u64 <= self.lim.scalar {
                let t = self.w.slice(1, 1 + n);
                if high && !simd::utf8(t) {
                    return refuse(Reason::BadText, self.w.place(0));
                }
                self.ready(h)?;
                h.string(self.w.slice(1, 1 + n), true, self.at(0))?;
                self.w.pos = n + 2;
                return Ok(());
            }
        }
        let place = self.w.place(self.w.pos);
        self.w.pos += 1;
        self.scratch.clear();
        self.decode(b'"', false, false, place)?;
        self.ready(h)?;
        h.string(self.scratch.all(), false, At { head: place, top: self.top, k: self.k })
    }

    /// A quoted symbol or a long string.
    #[inline(never)]
    pub(super) fn single<H: Handler>(&mut self, h: &mut H) -> Res<Flow> {
        self.ensure(3)?;
        let s = self.w.pos;
        let place = self.w.place(s);
        if self.w.b(s + 1) == b'\'' && self.w.b(s + 2) == b'\'' {
            self.scratch.clear();
            self.long(place, false)?;
            self.ready(h)?;
            h.string(self.scratch.all(), false, At { head: place, top: self.top, k: self.k })?;
            return Ok(Flow::Value);
        }
        self.scratch.clear();
        self.w.pos += 1;
        self.decode(b'\'', false, false, place)?;
        let form = sym_form(self.scratch.all());
        std::mem::swap(&mut self.scratch, &mut self.symbuf);
        self.symbol_slow(h, place, form)
    }

    /// Long strings from `pos` on into `scratch`; blanks after them are passed (in a clob white space).
    pub(super) fn long(&mut self, place: u64, clob: bool) -> Res {
        loop {
            self.w.pos += 3;
            self.decode(b'\'', true, clob, place)?;
            let c = if clob { self.lob_blanks(place)? } else { self.blanks()? };
            if c != b'\'' {
                return Ok(());
            }
            self.ensure(3)?;
            let p = self.w.pos;
            if clob {
                // only another long string can stand here
                for i in 1..3 {
                    if p + i >= self.w.end {
                        return refuse(Reason::Truncated, place);
                    }
                    if self.w.b(p + i) != b'\'' {
                        return refuse(Reason::BadLob, place);
                    }
                }
            } else if self.w.b(p + 1) != b'\'' || self.w.b(p + 2) != b'\'' {
                return Ok(());
            }
        }
    }

    #[inline(always)]
    pub(super) fn grown(&self, place: u64) -> Res {
        if self.scratch.len as u64 > self.lim.scalar {
            return refuse(Reason::ScalarLimit, place);
        }
        Ok(())
    }

    /// One segment from `pos` (after the opening quote) to its closing quote, appended to `scratch`.
    #[inline(never)]
    pub(super) fn decode(&mut self, quote: u8, long: bool, clob: bool, place: u64) -> Res {
        let bad = if clob { Reason::BadLob } else { Reason::BadText };
        let seg = self.scratch.len;
        let mut any_high = false;
        loop {
            let p = self.w.pos;
            let (n, high) = unsafe { simd::scan(self.w.ptr(p), quote) };
            if n > 0 {
                if clob && high {
                    let j = self.w.slice(p, p + n).iter().position(|&c| c >= 0x80).unwrap();
                    if (self.scratch.len + j) as u64 > self.lim.scalar {
                        return refuse(Reason::ScalarLimit, place);
                    }
                    return refuse(bad, place);
                }
                any_high |= high;
                self.scratch.put(self.w.slice(p, p + n));
                self.w.pos += n;
                self.grown(place)?;
            }
            let c = self.w.b(self.w.pos);
            if c == quote {
                if !long {
                    self.w.pos += 1;
                    break;
                }
                self.ensure(3)?;
                let p = self.w.pos;
                if self.w.b(p + 1) == quote && self.w.b(p + 2) == quote {
                    self.w.pos += 3;
                    break;
                }
                self.scratch.push(quote);
                self.w.pos += 1;
                self.grown(place)?;
                continue;
            }
            match c {
                b'\\' => {
                    any_high = true;
                    self.escape(clob, bad, place)?;
                    self.grown(place)?;
                }
                0x7f | 9 | 0x0b | 0x0c => {
                    self.scratch.push(c);
                    self.w.pos += 1;
                    self.grown(place)?;
                }
                b'\n' if long => {
                    self.scratch.push(c);
                    self.w.pos += 1;
                    self.grown(place)?;
                }
                b'\r' if long => {
                    self.ensure(2)?;
                    self.w.pos += 1 + (self.w.b(self.w.pos + 1) == b'\n') as usize;
                    self.scratch.push(b'\n');
                    self.grown(place)?;
                }
                _ => {
                    if self.w.pos == self.w.end {
                        if self.w.more(self.w.pos)? {
                            continue;
                        }
                        return refuse(Reason::Truncated, place);
                    }
                    return refuse(bad, place);
                }
            }
        }
        if !clob && any_high && !simd::utf8(self.scratch.get(seg, self.scratch.len)) {
            return refuse(Reason::BadText, place);
        }
        Ok(())
    }

    /// Hex digits of an escape from `pos + at` on.
    pub(super) fn hex(&self, at: usize, n: usize, bad: Reason, place: u64) -> Res<u32> {
        let mut v = 0u32;
        for i in 0..n {
            let p = self.w.pos + at + i;
            if p >= self.w.end {
                return refuse(Reason::Truncated, place);
            }
            match (self.w.b(p) as char).to_digit(16) {
                Some(d) => v = v << 4 | d,
                None => return refuse(bad, place),
            }
        }
        Ok(v)
    }

    pub(super) fn escape(&mut self, clob: bool, bad: Reason, place: u64) -> Res {
        self.ensure(2)?;
        if self.w.pos + 1 >= self.w.end {
            return refuse(Reason::Truncated, place);
        }
        let e = self.w.b(self.w.pos + 1);
        let simple = match e {
            b'a' => 7,
            b'b' => 8,
            b't' => 9,
            b'n' => 10,
            b'f' => 12,
            b'r' => 13,
            b'v' => 11,
            b'0' => 0,
            b'?' | b'"' | b'\'' | b'\\' | b'/' => e,
            _ => 0xff,
        };
        if simple != 0xff {
            self.scratch.push(simple);
            self.w.pos += 2;
            return Ok(());
        }
        match e {
            b'\n' => {
                self.w.pos += 2;
                return Ok(());
            }
            b'\r' => {
                self.ensure(3)?;
                self.w.pos += 2 + (self.w.b(self.w.pos + 2) == b'\n') as usize;
                return Ok(());
            }
            b'x' => {
                self.ensure(4)?;
                let v = self.hex(2, 2, bad, place)?;
                if clob || v < 0x80 {
                    self.scratch.push(v as u8);
                } else {
                    self.scratch.push(0xC0 | (v >> 6) as u8);
                    self.scratch.push(0x80 | (v & 0x3f) as u8);
                }
                self.w.pos += 4;
                return Ok(());
            }
            _ => {}
        }
        if clob || (e != b'u' && e != b'U') {
            return refuse(bad, place);
        }
        let (v, l) = if e == b'U' {
            self.ensure(10)?;
            (self.hex(2, 8, bad, place)?, 10)
        } else {
            self.ensure(6)?;
            let v = self.hex(2, 4, bad, place)?;
            if (0xD800..0xDC00).contains(&v) {
                self.ensure(12)?;
                for (i, want) in [(6, b'\\'), (7, b'u')] {
                    if self.w.pos + i >= self.w.end {
                        return refuse(Reason::Truncated, place);
                    }
                    if self.w.b(self.w.pos + i) != want {
                        return refuse(bad, place);
                    }
                }
                let w = self.hex(8, 4, bad, place)?;
                if !(0xDC00..0xE000).contains(&w) {
                    return refuse(bad, place);
                }
                (0x10000 + ((v - 0xD800) << 10) + (w - 0xDC00), 12)
            } else {
                (v, 6)
            }
        };
        match char::from_u32(v) {
            None => return refuse(bad, place),
            Some(ch) => {
                let mut b = [0u8; 4];
                self.scratch.put_any(ch.encode_utf8(&mut b).as_bytes());
            }
        }
        self.w.pos += l;
        Ok(())
    }

    // ---- lobs ----

    /// White space in a lob; the byte after it. The input's end is Truncated.
    #[inline(always)]
    pub(super) fn lob_blanks(&mut self, place: u64) -> Res<u8> {
        loop {
            let c = self.w.b(self.w.pos);
            if is_ws(c) {
                self.w.pos += 1;
                continue;
            }
            if self.w.pos == self.w.end {
                if self.w.more(self.w.pos)? {
                    continue;
                }
                return refuse(Reason::Truncated, place);
            }
            return Ok(c);
        }
    }

    /// The byte after one white space may not have is `}`; the second one.
    pub(super) fn lob_end(&mut self, place: u64) -> Res {
        self.ensure(2)?;
        if self.w.pos + 1 >= self.w.end {
            return refuse(Reason::Truncated, place);
        }
        if self.w.b(self.w.pos + 1) != b'}' {
            return refuse(Reason::BadLob, place);
        }
        self.w.pos += 2;
        Ok(())
    }

    #[inline(never)]
    pub(super) fn lob<H: Handler>(&mut self, h: &mut H) -> Res {
        let place = self.w.place(self.w.pos);
        self.w.pos += 2;
        self.scratch.clear();
        let c = self.lob_blanks(place)?;
        if c == b'"' || c == b'\'' {
            let c = if c == b'"' {
                self.w.pos += 1;
                self.decode(b'"', false, true, place)?;
                self.lob_blanks(place)?
            } else {
                self.ensure(3)?;
                for i in 1..3 {
                    if self.w.pos + i >= self.w.end {
                        return refuse(Reason::Truncated, place);
                    }
                    if self.w.b(self.w.pos + i) != b'\'' {
                        return refuse(Reason::BadLob, place);
                    }
                }
                self.long(place, true)?;
                self.lob_blanks(place)?
            };
            if c != b'}' {
                return refuse(Reason::BadLob, place);
            }
            self.lob_end(place)?;
            self.ready(h)?;
            return h.clob(self.scratch.all(), At { head: place, top: self.top, k: self.k });
        }
        let mut padded = false;
        'blob: loop {
            if !padded {
                let room = self.w.end - self.w.pos;
                if room >= 4 {
                    self.scratch.need(room / 4 * 3 + 32);
                    let n = unsafe { simd::base64_decode(self.w.ptr(self.w.pos), room, self.scratch.tail_ptr()) };
                    self.scratch.len += n / 4 * 3;
                    self.w.pos += n;
                    self.grown(place)?;
                }
            }
            // four characters one by one
            let mut q = [0u8; 4];
            for i in 0..4 {
                let c = self.lob_blanks(place)?;
                if c == b'}' {
                    self.lob_end(place)?;
                    if i > 0 {
                        return refuse(Reason::BadLob, place);
                    }
                    break 'blob;
                }
                q[i] = c;
                self.w.pos += 1;
            }
            let d = |i: usize| simd::DEC[q[i] as usize];
            let pads = if q[3] != b'=' {
                0
            } else if q[2] != b'=' {
                1
            } else {
                2
            };
            if padded || (0..4 - pads).any(|i| d(i) == simd::BAD) {
                return refuse(Reason::BadLob, place);
            }
            self.scratch.push(d(0) << 2 | d(1) >> 4);
            match pads {
                0 => {
                    self.scratch.push(d(1) << 4 | d(2) >> 2);
                    self.scratch.push(d(2) << 6 | d(3));
                }
                1 => {
                    if d(2) & 3 != 0 {
                        return refuse(Reason::BadLob, place);
                    }
                    self.scratch.push(d(1) << 4 | d(2) >> 2);
                }
                _ => {
                    if d(1) & 15 != 0 {
                        return refuse(Reason::BadLob, place);
                    }
                }
            }
            padded = pads > 0;
            self.grown(place)?;
        }
        self.ready(h)?;
        h.blob(self.scratch.all(), At { head: place, top: self.top, k: self.k })
    }
}

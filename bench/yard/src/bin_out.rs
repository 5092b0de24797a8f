//! The binary writer: the open top-level value is built at the output's end.

use crate::common::*;
use crate::float;
use crate::symbols::SYSTEM;

#[derive(Clone, Copy)]
struct Open {
    /// first octet of the value (of its wrapper, where it has one)
    start: usize,
    /// first octet of the container's head
    head: usize,
    /// first octet of its content
    content: usize,
    /// octets of the annotation ids; 0: no wrapper
    ids: usize,
    kind: u8,
}

#[derive(Clone, Copy)]
struct Entry {
    off: u32,
    len: u32,
}

pub struct BinWriter<'w> {
    pub o: Out<'w>,
    lim: Limits,
    // output table: ids of texts by hash
    index: Vec<u64>, // hash (high 32) and id (low 32); 0 free
    mask: usize,
    texts: Vec<Entry>, // by id
    arena: Bytes,
    cost: u64,
    /// texts below this are declared
    declared: usize,
    /// the id of the field that came after a field the last time
    next: Vec<u32>,
    last: u32,
    marker: bool,
    // the item
    over: bool,
    over_place: u64,
    wrap: usize, // start of the wrapper; MAX: none
    ids_start: usize,
    // the value
    stack: Vec<Open>,
    slack: u64,
    /// up to this length of the output no limit can be passed
    calm: usize,
    guess: [u8; 64],
}

const NONE: usize = usize::MAX;

#[inline(always)]
unsafe fn r8(p: *const u8) -> u64 {
    (p as *const u64).read_unaligned()
}
#[inline(always)]
unsafe fn r4(p: *const u8) -> u64 {
    (p as *const u32).read_unaligned() as u64
}

#[inline(always)]
fn fold(a: u64, b: u64) -> u64 {
    let m = (a as u128) * (b as u128);
    (m as u64) ^ ((m >> 64) as u64)
}

#[inline(always)]
fn hash(t: &[u8]) -> u64 {
    const K0: u64 = 0x9e37_79b9_7f4a_7c15;
    const K1: u64 = 0xd1b5_4a32_d192_ed03;
    let n = t.len();
    let p = t.as_ptr();
    unsafe {
        let (a, b, mut seed) = if n <= 16 {
            if n >= 8 {
                (r8(p), r8(p.add(n - 8)), K0)
            } else if n >= 4 {
                (r4(p), r4(p.add(n - 4)), K0)
            } else if n > 0 {
                (*p as u64 | (*p.add(n / 2) as u64) << 8 | (*p.add(n - 1) as u64) << 16, 0, K0)
            } else {
                (0, 0, K0)
            }
        } else {
            let mut s = K0;
            let mut i = 0;
            while i + 16 < n {
                s = fold(r8(p.add(i)) ^ s, r8(p.add(i + 8)) ^ K1);
                i += 16;
            }
            (r8(p.add(n - 16)), r8(p.add(n - 8)), s)
        };
        seed ^= n as u64;
        fold(a ^ seed, b ^ K1)
    }
}

/// Both sides have the slack after them.
#[inline(always)]
unsafe fn same(a: *const u8, b: *const u8, n: usize) -> bool {
    use std::arch::x86_64::*;
    if n <= 16 {
        let x = _mm_loadu_si128(a as *const __m128i);
        let y = _mm_loadu_si128(b as *const __m128i);
        let m = _mm_movemask_epi8(_mm_cmpeq_epi8(x, y)) as u32;
        !m & ((1u32 << n) - 1) == 0
    } else {
        std::slice::from_raw_parts(a, n) == std::slice::from_raw_parts(b, n)
    }
}

#[inline(always)]
fn var_len(n: u64) -> usize {
    let bits = 64 - (n | 1).leading_zeros() as usize;
    (bits + 6) / 7
}

#[inline(always)]
fn head_len(n: u64) -> usize {
    if n < 14 {
        1
    } else {
        1 + var_len(n)
    }
}

/// Room of 10 octets.
#[inline(always)]
unsafe fn put_var(p: *mut u8, n: u64) -> usize {
    if n < 128 {
        *p = 0x80 | n as u8;
        1
    } else if n < 16384 {
        *p = (n >> 7) as u8;
        *p.add(1) = 0x80 | (n & 127) as u8;
        2
    } else {
        let l = var_len(n);
        let mut v = n;
        let mut i = l;
        while i > 0 {
            i -= 1;
            *p.add(i) = (v & 127) as u8;
            v >>= 7;
        }
        *p.add(l - 1) |= 0x80;
        l
    }
}

#[inline(always)]
unsafe fn put_head(p: *mut u8, t: u8, n: u64) -> usize {
    if n < 14 {
        *p = t << 4 | n as u8;
        1
    } else {
        *p = t << 4 | 14;
        1 + put_var(p.add(1), n)
    }
}

/// VarInt; room of 10 octets.
#[inline(always)]
fn put_var_int(p: *mut u8, neg: bool, mag: u64) -> usize {
    if mag < 64 {
        unsafe { *p = 0x80 | (neg as u8) << 6 | mag as u8 };
        return 1;
    }
    let mut l = 1;
    while l < 9 && mag >> (7 * l - 1) != 0 {
        l += 1;
    }
    unsafe {
        let mut v = mag;
        for i in (0..l).rev() {
            *p.add(i) = (v & 127) as u8;
            v >>= 7;
        }
        if neg {
            *p |= 0x40;
        }
        *p.add(l - 1) |= 0x80;
    }
    l
}

/// Int (sign and magnitude); room of 17 octets. Positive zero has none.
#[inline(always)]
fn put_int(p: *mut u8, neg: bool, mag: u128) -> usize {
    if mag == 0 && !neg {
        return 0;
    }
    if mag < 1 << 63 {
        let m = mag as u64;
        let l = (64 - m.leading_zeros() as usize) / 8 + 1; // one bit for the sign
        unsafe {
            (p as *mut u64).write_unaligned((m << (64 - 8 * l)).swap_bytes());
            if neg {
                *p |= 0x80;
            }
        }
        return l;
    }
    let bits = 128 - mag.leading_zeros() as usize;
    let l = bits / 8 + 1;
    unsafe {
        let be = mag.to_be_bytes();
        if l <= 16 {
            std::ptr::copy_nonoverlapping(be.as_ptr().add(16 - l), p, l);
        } else {
            *p = 0;
            std::ptr::copy_nonoverlapping(be.as_ptr(), p.add(1), 16);
        }
        if neg {
            *p |= 0x80;
        }
    }
    l
}

impl<'w> BinWriter<'w> {
    pub fn new(mut o: Out<'w>, lim: Limits) -> Res<Self> {
        o.need(4);
        o.put_any(&[0xE0, 1, 0, 0xEA]);
        o.commit()?;
        let mut w = BinWriter {
            o,
            lim,
            index: vec![0; 1024],
            mask: 1023,
            texts: Vec::new(),
            arena: Bytes::default(),
            cost: 0,
            declared: 10,
            next: Vec::new(),
            last: 1,
            marker: false,
            over: false,
            over_place: 0,
            wrap: NONE,
            ids_start: 0,
            stack: Vec::new(),
            slack: 0,
            calm: 0,
            guess: [1; 64],
        };
        w.clear_table();
        w.set_calm();
        Ok(w)
    }

    fn clear_table(&mut self) {
        self.index.fill(0);
        self.texts.clear();
        self.arena.clear();
        self.cost = 0;
        self.declared = 10;
        self.next.clear();
        self.next.push(1);
        self.last = 1;
        self.texts.push(Entry { off: 0, len: u32::MAX });
        for t in &SYSTEM[1..] {
            self.add(t.as_bytes(), hash(t.as_bytes()));
        }
    }

    fn add(&mut self, t: &[u8], h: u64) -> u32 {
        let id = self.texts.len() as u32;
        let off = self.arena.len as u32;
        self.arena.put_any(t);
        self.texts.push(Entry { off, len: t.len() as u32 });
        self.next.push(1);
        if self.texts.len() * 2 > self.index.len() {
            let n = self.index.len() * 4;
            let old = std::mem::replace(&mut self.index, vec![0; n]);
            self.mask = n - 1;
            for e in old {
                if e != 0 {
                    let id = (e & 0xffff_ffff) as usize;
                    let x = self.texts[id];
                    let h = hash(self.arena.get(x.off as usize, x.off as usize + x.len as usize));
                    self.place_entry(h, id as u32);
                }
            }
        }
        self.place_entry(h, id);
        id
    }

    fn place_entry(&mut self, h: u64, id: u32) {
        let mut i = h as usize & self.mask;
        while self.index[i] != 0 {
            i = (i + 1) & self.mask;
        }
        self.index[i] = (h & 0xffff_ffff_0000_0000) | id as u64;
    }

    /// The id of a text, adding one that is new. A text that passes the limit is noted.
    #[inline(always)]
    fn id_of(&mut self, s: Sym, place: u64) -> u32 {
        if s.form == S_UNKNOWN {
            return 0;
        }
        let t = s.text;
        let h = hash(t);
        let mut i = h as usize & self.mask;
        loop {
            let e = unsafe { *self.index.get_unchecked(i) };
            if e == 0 {
                return self.new_text(t, h, place);
            }
            if (e ^ h) >> 32 == 0 {
                let id = e as u32;
                let x = unsafe { *self.texts.get_unchecked(id as usize) };
                if x.len as usize == t.len() && unsafe { same(self.arena.get(x.off as usize, x.off as usize).as_ptr(), t.as_ptr(), t.len()) } {
                    return id;
                }
            }
            i = (i + 1) & self.mask;
        }
    }

    /// The id of a field's text: mostly the one that came after the last field before.
    #[inline(always)]
    fn field_id(&mut self, s: Sym, place: u64) -> u32 {
        let t = s.text;
        // SAFETY: `last` and what stands in `next` are ids, or 0 after a refusal
        let guess = unsafe { *self.next.get_unchecked(self.last as usize) };
        let x = unsafe { *self.texts.get_unchecked(guess as usize) };
        if x.len as usize == t.len()
            && s.form != S_UNKNOWN
            && unsafe { same(self.arena.get(x.off as usize, x.off as usize).as_ptr(), t.as_ptr(), t.len()) }
        {
            self.last = guess;
            return guess;
        }
        let id = self.id_of(s, place);
        if id != 0 {
            self.next[self.last as usize] = id;
            self.last = id;
        }
        id
    }

    #[cold]
    #[inline(never)]
    fn new_text(&mut self, t: &[u8], h: u64, place: u64) -> u32 {
        let c = 16 + t.len() as u64;
        if self.over || self.cost + c > self.lim.symbols {
            if !self.over {
                self.over = true;
                self.over_place = place;
                self.set_calm();
            }
            return 0;
        }
        self.cost += c;
        self.add(t, h)
    }

    /// Before an item's own octets: room, the wrapper's annot_length.
    #[inline(always)]
    fn head(&mut self, room: usize) {
        self.o.need(room + 32);
        if self.wrap != NONE {
            self.close_ids();
        }
    }

    #[cold]
    #[inline(never)]
    fn close_ids(&mut self) {
        // [1 octet for the wrapper's head] [1 octet annot_length] ids
        let n = (self.o.len - self.ids_start) as u64;
        let l = var_len(n);
        if l > 1 {
            self.shift(self.ids_start, l as isize - 1);
            self.ids_start += l - 1;
        }
        unsafe { put_var(self.o.buf.as_mut_ptr().add(self.ids_start - l), n) };
    }

    /// Moves the octets from `from` to the end by `by`.
    #[inline(always)]
    fn shift(&mut self, from: usize, by: isize) {
        if by > 0 {
            self.o.need(by as usize + 32);
        }
        let n = self.o.len - from;
        let to = (from as isize + by) as usize;
        unsafe {
            let b = self.o.buf.as_mut_ptr();
            if n <= 16 {
                // SAFETY: slack after the end
                let x = (b.add(from) as *const [u8; 16]).read_unaligned();
                (b.add(to) as *mut [u8; 16]).write_unaligned(x);
            } else {
                std::ptr::copy(b.add(from), b.add(to), n);
            }
        }
        self.o.len = (self.o.len as isize + by) as usize;
    }

    #[cold]
    #[inline(never)]
    fn close_wrap(&mut self, start: usize) {
        let n = (self.o.len - start - 1) as u64;
        let l = head_len(n);
        if l > 1 {
            self.shift(start + 1, l as isize - 1);
        }
        unsafe { put_head(self.o.buf.as_mut_ptr().add(start), 14, n) };
    }

    /// The closed size of the present top-level value.
    fn closed_size(&self) -> u64 {
        let mut inner = 0u64;
        let mut end = self.o.len;
        for c in self.stack.iter().rev() {
            let content = (end - c.content) as u64 + inner;
            let mut n = head_len(content) as u64 + content;
            if c.ids > 0 {
                n += var_len(c.ids as u64) as u64 + c.ids as u64;
                n += head_len(n) as u64;
            }
            inner = n;
            end = c.start;
        }
        inner + (end - self.o.done) as u64
    }

    #[inline(always)]
    fn set_calm(&mut self) {
        self.calm = if self.over { 0 } else { (self.o.done as u64 + self.lim.value).saturating_sub(self.slack) as usize };
    }

    #[inline(always)]
    fn limits(&mut self, at: At) -> Res {
        if self.o.len > self.calm {
            return self.limits_slow(at);
        }
        Ok(())
    }

    #[cold]
    #[inline(never)]
    fn limits_slow(&mut self, at: At) -> Res {
        if self.over {
            return refuse(Reason::SymbolLimit, self.over_place);
        }
        if self.closed_size() > self.lim.value {
            return refuse(Reason::ValueLimit, at.top);
        }
        Ok(())
    }

    /// After a scalar's octets.
    #[inline(always)]
    fn tail(&mut self, at: At) -> Res {
        if self.wrap != NONE {
            let s = self.wrap;
            self.wrap = NONE;
            self.close_wrap(s);
        }
        self.limits(at)?;
        if at.k == TOP {
            self.value_done()?;
        }
        Ok(())
    }

    #[inline(always)]
    fn value_done(&mut self) -> Res {
        if self.declared < self.texts.len() || self.marker {
            self.declare();
        }
        self.o.commit()?;
        if self.cost > self.lim.symbols / 2 {
            self.clear_table();
            self.marker = true;
        }
        self.set_calm();
        Ok(())
    }

    /// Puts the marker and the declaration before the value.
    #[cold]
    #[inline(never)]
    fn declare(&mut self) {
        let mut d: Vec<u8> = Vec::new();
        if self.marker {
            d.extend_from_slice(&[0xE0, 1, 0, 0xEA]);
            self.marker = false;
        }
        if self.declared < self.texts.len() {
            let mut list = 0u64;
            for e in &self.texts[self.declared..] {
                list += head_len(e.len as u64) as u64 + e.len as u64;
            }
            // 86 71 03 87 list
            let body = 4 + head_len(list) as u64 + list;
            let wrapped = 2 + head_len(body) as u64 + body;
            let mut h = [0u8; 48];
            let mut n = 0;
            unsafe {
                n += put_head(h.as_mut_ptr().add(n), 14, wrapped);
                h[n] = 0x81;
                h[n + 1] = 0x83;
                n += 2;
                n += put_head(h.as_mut_ptr().add(n), 13, body);
                h[n..n + 4].copy_from_slice(&[0x86, 0x71, 0x03, 0x87]);
                n += 4;
                n += put_head(h.as_mut_ptr().add(n), 11, list);
                d.extend_from_slice(&h[..n]);
                for e in &self.texts[self.declared..] {
                    let mut x = [0u8; 16];
                    let l = put_head(x.as_mut_ptr(), 8, e.len as u64);
                    d.extend_from_slice(&x[..l]);
                    d.extend_from_slice(self.arena.get(e.off as usize, e.off as usize + e.len as usize));
                }
            }
            self.declared = self.texts.len();
        }
        let at = self.o.done;
        self.shift(at, d.len() as isize);
        self.o.buf[at..at + d.len()].copy_from_slice(&d);
    }
}

impl<'w> Handler for BinWriter<'w> {
    const GAPS: bool = false;

    #[inline(always)]
    fn field(&mut self, s: Sym, place: u64) {
        let id = self.field_id(s, place);
        self.o.need(32);
        unsafe {
            let n = put_var(self.o.ptr(), id as u64);
            self.o.len += n;
        }
    }
    #[inline(never)]
    fn ann(&mut self, s: Sym, place: u64) {
        let id = self.id_of(s, place);
        self.o.need(32);
        if self.wrap == NONE {
            self.wrap = self.o.len;
            self.o.len += 2;
            self.ids_start = self.o.len;
        }
        unsafe {
            let n = put_var(self.o.ptr(), id as u64);
            self.o.len += n;
        }
    }
    fn null(&mut self, t: u8, at: At) -> Res {
        self.head(1);
        self.o.push(t << 4 | 15);
        self.tail(at)
    }
    #[inline(always)]
    fn boolean(&mut self, b: bool, at: At) -> Res {
        self.head(1);
        self.o.push(0x10 | b as u8);
        self.tail(at)
    }
    #[inline(always)]
    fn int(&mut self, neg: bool, mag: u64, at: At) -> Res {
        self.head(16);
        let n = (64 - mag.leading_zeros() as usize + 7) / 8;
        unsafe {
            let p = self.o.ptr();
            *p = (0x20 + ((neg as u8) << 4)) | n as u8;
            let be = if n == 0 { 0 } else { (mag << (64 - 8 * n)).swap_bytes() };
            (p.add(1) as *mut u64).write_unaligned(be);
        }
        self.o.len += n + 1;
        self.tail(at)
    }
    fn int_big(&mut self, neg: bool, mag: u128, at: At) -> Res {
        self.head(32);
        let n = (128 - mag.leading_zeros() as usize + 7) / 8;
        unsafe {
            let p = self.o.ptr();
            let h = put_head(p, 2 + neg as u8, n as u64);
            let be = mag.to_be_bytes();
            std::ptr::copy_nonoverlapping(be.as_ptr().add(16 - n), p.add(h), n);
            self.o.len += h + n;
        }
        self.tail(at)
    }
    #[inline(always)]
    fn float(&mut self, x: f64, at: At) -> Res {
        self.head(16);
        let n = unsafe { float::put_octets(self.o.ptr(), x) };
        self.o.len += n;
        self.tail(at)
    }
    fn decimal(&mut self, neg: bool, coef: u128, exp: i32, at: At) -> Res {
        self.head(48);
        if coef == 0 && !neg && exp == 0 {
            self.o.push(0x50);
        } else {
            unsafe {
                let p = self.o.ptr();
                let mut n = put_var_int(p.add(1), exp < 0, exp.unsigned_abs() as u64);
                n += put_int(p.add(1 + n), neg, coef);
                if n < 14 {
                    *p = 0x50 | n as u8;
                    self.o.len += n + 1;
                } else {
                    std::ptr::copy(p.add(1), p.add(2), n);
                    *p = 0x5E;
                    *p.add(1) = 0x80 | n as u8;
                    self.o.len += n + 2;
                }
            }
        }
        self.tail(at)
    }
    #[inline(always)]
    fn timestamp(&mut self, t: &Ts, at: At) -> Res {
        self.head(64);
        let mut u = *t;
        unsafe {
            let p0 = self.o.ptr();
            let mut p = p0.add(1);
            if t.prec < P_MINUTE || t.unknown {
                *p = 0xC0;
                p = p.add(1);
            } else {
                if t.offset == 0 {
                    *p = 0x80;
                    p = p.add(1);
                } else {
                    shift_minutes(&mut u, -(t.offset as i32));
                    p = p.add(put_var_int(p, t.offset < 0, t.offset.unsigned_abs() as u64));
                }
            }
            p = p.add(put_var(p, u.year as u64));
            if t.prec >= P_MONTH {
                *p = 0x80 | u.month;
                p = p.add(1);
            }
            if t.prec >= P_DAY {
                *p = 0x80 | u.day;
                p = p.add(1);
            }
            if t.prec >= P_MINUTE {
                *p = 0x80 | u.hour;
                *p.add(1) = 0x80 | u.minute;
                p = p.add(2);
            }
            if t.prec >= P_SECOND {
                *p = 0x80 | u.second;
                p = p.add(1);
            }
            if t.prec == P_FRACTION {
                *p = 0xC0 | t.digits; // at most 38
                p = p.add(1);
                p = p.add(put_int(p, false, t.frac));
            }
            let n = p.offset_from(p0) as usize - 1;
            if n < 14 {
                *p0 = 0x60 | n as u8;
                self.o.len += n + 1;
            } else {
                let l = self.o.len;
                self.o.len += n + 1;
                self.shift(l + 1, 1);
                let b = self.o.buf.as_mut_ptr();
                *b.add(l) = 0x6E;
                *b.add(l + 1) = 0x80 | n as u8;
            }
        }
        self.tail(at)
    }
    #[inline(always)]
    fn symbol(&mut self, s: Sym, at: At) -> Res {
        self.head(16);
        let id = self.id_of(s, at.head);
        let n = (32 - id.leading_zeros() as usize + 7) / 8;
        unsafe {
            let p = self.o.ptr();
            *p = 0x70 | n as u8;
            let be = if n == 0 { 0 } else { (id << (32 - 8 * n)).swap_bytes() };
            (p.add(1) as *mut u32).write_unaligned(be);
        }
        self.o.len += n + 1;
        self.tail(at)
    }
    #[inline(always)]
    fn string(&mut self, s: &[u8], _: bool, at: At) -> Res {
        self.head(s.len() + 32);
        unsafe {
            let h = put_head(self.o.ptr(), 8, s.len() as u64);
            self.o.len += h;
        }
        self.o.put(s);
        self.tail(at)
    }
    fn clob(&mut self, s: &[u8], at: At) -> Res {
        self.head(s.len() + 32);
        unsafe {
            let h = put_head(self.o.ptr(), 9, s.len() as u64);
            self.o.len += h;
        }
        self.o.put(s);
        self.tail(at)
    }
    fn blob(&mut self, s: &[u8], at: At) -> Res {
        self.head(s.len() + 32);
        unsafe {
            let h = put_head(self.o.ptr(), 10, s.len() as u64);
            self.o.len += h;
        }
        self.o.put(s);
        self.tail(at)
    }
    #[inline(always)]
    fn begin(&mut self, kind: u8, at: At) -> Res {
        self.head(32);
        let mut ids = 0;
        let mut start = self.o.len;
        let mut more = 20;
        if self.wrap != NONE {
            ids = self.o.len - self.ids_start;
            start = self.wrap;
            self.wrap = NONE;
            more = 40;
        }
        let head = self.o.len;
        let d = self.stack.len().min(63);
        let content = head + self.guess[d] as usize;
        self.o.len = content;
        self.stack.push(Open { start, head, content, ids, kind });
        self.slack += more;
        self.set_calm();
        self.limits(at)
    }
    #[inline(always)]
    fn end(&mut self, _: u8, parent: u8) -> Res {
        let c = self.stack.pop().unwrap();
        let n = (self.o.len - c.content) as u64;
        let l = head_len(n);
        let have = c.content - c.head;
        if l != have {
            self.shift(c.content, l as isize - have as isize);
            let d = self.stack.len().min(63);
            self.guess[d] = l as u8;
        }
        const T: [u8; 4] = [0, 11, 12, 13];
        unsafe { put_head(self.o.buf.as_mut_ptr().add(c.head), T[c.kind as usize], n) };
        self.slack -= if c.ids > 0 { 40 } else { 20 };
        if c.ids > 0 {
            self.close_wrap(c.start);
        }
        self.set_calm();
        if parent == TOP {
            self.value_done()?;
        }
        Ok(())
    }
}

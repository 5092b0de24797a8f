//! Reasons, faults, limits, the window on the input and the byte buffers.

use std::io::{Read, Write};

#[derive(Clone, Copy, PartialEq, Eq, Debug)]
#[repr(u8)]
pub enum Reason {
    Truncated = 1,
    BadDescriptor,
    BadVar,
    Overrun,
    BadVersion,
    BadAnnotation,
    BadNumber,
    BadTimestamp,
    Range,
    BadText,
    Float,
    BadToken,
    BadLob,
    DepthLimit,
    ScalarLimit,
    AnnotationLimit,
    BadSymbol,
    UnknownSymbol,
    BadTable,
    SymbolLimit,
    ValueLimit,
    SameForm,
    CatalogEntry,
}

impl Reason {
    pub fn name(self) -> &'static str {
        use Reason::*;
        match self {
            Truncated => "Truncated",
            BadDescriptor => "BadDescriptor",
            BadVar => "BadVar",
            Overrun => "Overrun",
            BadVersion => "BadVersion",
            BadAnnotation => "BadAnnotation",
            BadNumber => "BadNumber",
            BadTimestamp => "BadTimestamp",
            Range => "Range",
            BadText => "BadText",
            Float => "Float",
            BadToken => "BadToken",
            BadLob => "BadLob",
            DepthLimit => "DepthLimit",
            ScalarLimit => "ScalarLimit",
            AnnotationLimit => "AnnotationLimit",
            BadSymbol => "BadSymbol",
            UnknownSymbol => "UnknownSymbol",
            BadTable => "BadTable",
            SymbolLimit => "SymbolLimit",
            ValueLimit => "ValueLimit",
            SameForm => "SameForm",
            CatalogEntry => "CatalogEntry",
        }
    }
}

#[derive(Clone, Copy, PartialEq, Eq, Debug)]
pub enum Fault {
    Refused(Reason, u64),
    Read,
    Write,
    InputLimit,
}

pub type Res<T = ()> = Result<T, Fault>;

#[cold]
#[inline(never)]
pub fn refuse<T>(r: Reason, place: u64) -> Res<T> {
    Err(Fault::Refused(r, place))
}

pub const INPUT_LIMIT: u64 = 1 << 48;
pub const MAX_ID: u64 = (1 << 31) - 1;

#[derive(Clone, Copy, Debug)]
pub struct Limits {
    pub depth: u32,
    pub scalar: u64,
    pub symbols: u64,
    pub value: u64,
    /// all floats are read, not `null.float` alone
    pub floats: bool,
    /// size of the windows
    pub window: usize,
    /// greatest number of bytes asked for in one read (tests)
    pub chunk: usize,
}

impl Default for Limits {
    fn default() -> Self {
        Limits { depth: 64, scalar: 1_048_576, symbols: 1_048_576, value: 16_777_216, floats: false, window: 65536, chunk: usize::MAX }
    }
}

// container kinds
pub const TOP: u8 = 0;
pub const LIST: u8 = 1;
pub const SEXP: u8 = 2;
pub const STRUCT: u8 = 3;

// types of nulls, numbered as in binary
pub const TYPE_NAMES: [&str; 14] = [
    "null", "bool", "int", "int", "float", "decimal", "timestamp", "symbol", "string", "clob", "blob", "list", "sexp", "struct",
];

/// Bytes that may be read past the end of every slice handed to a writer.
pub const SLACK: usize = 64;

/// A window on the input. `buf[end..end+SLACK]` is readable and zero.
pub struct Win<'r> {
    pub buf: Vec<u8>,
    pub pos: usize,
    pub end: usize,
    pub base: u64,
    pub eof: bool,
    cap: usize,
    chunk: usize,
    src: &'r mut dyn Read,
}

impl<'r> Win<'r> {
    pub fn new(src: &'r mut dyn Read, window: usize, chunk: usize) -> Self {
        let cap = window.max(1);
        Win { buf: vec![0; cap + SLACK], pos: 0, end: 0, base: 0, eof: false, cap, chunk, src }
    }

    #[inline(always)]
    pub fn b(&self, i: usize) -> u8 {
        debug_assert!(i < self.end + SLACK);
        // SAFETY: callers stay within the slack after `end`
        unsafe { *self.buf.as_ptr().add(i) }
    }

    #[inline(always)]
    pub fn slice(&self, a: usize, b: usize) -> &[u8] {
        debug_assert!(a <= b && b <= self.end);
        unsafe { std::slice::from_raw_parts(self.buf.as_ptr().add(a), b - a) }
    }

    #[inline(always)]
    pub fn ptr(&self, i: usize) -> *const u8 {
        debug_assert!(i < self.end + SLACK);
        unsafe { self.buf.as_ptr().add(i) }
    }

    #[inline(always)]
    pub fn place(&self, i: usize) -> u64 {
        self.base + i as u64
    }

    /// Keeps the bytes from `keep` on (they move to the front, `pos` with them) and reads more.
    /// False at the end of the input.
    #[cold]
    #[inline(never)]
    pub fn more(&mut self, keep: usize) -> Res<bool> {
        debug_assert!(keep <= self.pos && self.pos <= self.end);
        if keep > 0 {
            self.buf.copy_within(keep..self.end, 0);
            self.base += keep as u64;
            self.pos -= keep;
            self.end -= keep;
        }
        if self.eof {
            self.buf[self.end..self.end + SLACK].fill(0);
            return Ok(false);
        }
        if self.end == self.cap {
            self.cap *= 2;
            self.buf.resize(self.cap + SLACK, 0);
        }
        let want = (self.cap - self.end).min(self.chunk);
        let n = loop {
            match self.src.read(&mut self.buf[self.end..self.end + want]) {
                Ok(n) => break n,
                Err(e) if e.kind() == std::io::ErrorKind::Interrupted => continue,
                Err(_) => return Err(Fault::Read),
            }
        };
        if n == 0 {
            self.eof = true;
        }
        self.end += n;
        self.buf[self.end..self.end + SLACK].fill(0);
        if self.base + self.end as u64 > INPUT_LIMIT {
            return Err(Fault::InputLimit);
        }
        Ok(n > 0)
    }
}

/// Copies `n` bytes in steps of 16; reads and writes up to 32 bytes more.
/// # Safety: both sides have the slack.
#[inline(always)]
pub unsafe fn copy_over(src: *const u8, dst: *mut u8, n: usize) {
    use std::arch::x86_64::*;
    let step = |i: usize| {
        _mm_storeu_si128(dst.add(i) as *mut __m128i, _mm_loadu_si128(src.add(i) as *const __m128i));
    };
    // one way for nearly all short texts
    step(0);
    step(16);
    if n > 32 {
        if n <= 128 {
            let mut i = 32;
            while i < n {
                step(i);
                step(i + 16);
                i += 32;
            }
        } else {
            std::ptr::copy_nonoverlapping(src, dst, n);
        }
    }
}

/// Growing bytes with readable, initialised slack after the end.
pub struct Bytes {
    buf: Vec<u8>,
    pub len: usize,
}

impl Default for Bytes {
    /// The slack is there from the first.
    fn default() -> Self {
        Bytes { buf: vec![0; 256], len: 0 }
    }
}

impl Bytes {
    #[inline(always)]
    pub fn need(&mut self, n: usize) {
        if self.buf.len() < self.len + n + SLACK {
            self.grow(n);
        }
    }
    #[cold]
    #[inline(never)]
    fn grow(&mut self, n: usize) {
        let want = (self.len + n + SLACK).max(self.buf.len() * 2).max(256);
        self.buf.resize(want, 0);
    }
    #[inline(always)]
    pub fn clear(&mut self) {
        self.len = 0;
    }
    #[inline(always)]
    pub fn push(&mut self, b: u8) {
        self.need(1);
        unsafe { *self.buf.as_mut_ptr().add(self.len) = b };
        self.len += 1;
    }
    /// `s` has the slack after it.
    #[inline(always)]
    pub fn put(&mut self, s: &[u8]) {
        self.need(s.len());
        unsafe { copy_over(s.as_ptr(), self.buf.as_mut_ptr().add(self.len), s.len()) };
        self.len += s.len();
    }
    /// Any slice.
    #[inline(always)]
    pub fn put_any(&mut self, s: &[u8]) {
        self.need(s.len());
        self.buf[self.len..self.len + s.len()].copy_from_slice(s);
        self.len += s.len();
    }
    #[inline(always)]
    pub fn get(&self, a: usize, b: usize) -> &[u8] {
        debug_assert!(a <= b && b <= self.len);
        unsafe { std::slice::from_raw_parts(self.buf.as_ptr().add(a), b - a) }
    }
    #[inline(always)]
    pub fn all(&self) -> &[u8] {
        self.get(0, self.len)
    }
    #[inline(always)]
    pub fn tail_ptr(&mut self) -> *mut u8 {
        unsafe { self.buf.as_mut_ptr().add(self.len) }
    }
}

/// The output: bytes up to `done` belong to whole items, the rest is provisional.
pub struct Out<'w> {
    pub buf: Vec<u8>,
    pub len: usize,
    pub done: usize,
    sink: &'w mut dyn Write,
}

const FLUSH_AT: usize = 65536;

impl<'w> Out<'w> {
    pub fn new(sink: &'w mut dyn Write, window: usize) -> Self {
        Out { buf: vec![0; window * 2 + 4096], len: 0, done: 0, sink }
    }
    #[inline(always)]
    pub fn need(&mut self, n: usize) {
        if self.buf.len() < self.len + n + SLACK {
            self.grow(n);
        }
    }
    #[cold]
    #[inline(never)]
    fn grow(&mut self, n: usize) {
        let want = (self.len + n + SLACK).max(self.buf.len() * 2);
        self.buf.resize(want, 0);
    }
    /// Room was asked for with `need`.
    #[inline(always)]
    pub fn push(&mut self, b: u8) {
        debug_assert!(self.len < self.buf.len());
        unsafe { *self.buf.as_mut_ptr().add(self.len) = b };
        self.len += 1;
    }
    #[inline(always)]
    pub fn ptr(&mut self) -> *mut u8 {
        unsafe { self.buf.as_mut_ptr().add(self.len) }
    }
    /// `s` has the slack after it; room was asked for.
    #[inline(always)]
    pub fn put(&mut self, s: &[u8]) {
        debug_assert!(self.len + s.len() + 16 <= self.buf.len());
        unsafe { copy_over(s.as_ptr(), self.ptr(), s.len()) };
        self.len += s.len();
    }
    /// Any slice; room was asked for.
    #[inline(always)]
    pub fn put_any(&mut self, s: &[u8]) {
        self.buf[self.len..self.len + s.len()].copy_from_slice(s);
        self.len += s.len();
    }
    /// All up to here is whole.
    #[inline(always)]
    pub fn commit(&mut self) -> Res {
        self.done = self.len;
        if self.len >= FLUSH_AT {
            return self.write_done();
        }
        Ok(())
    }
    #[cold]
    #[inline(never)]
    fn write_done(&mut self) -> Res {
        let mut a = 0;
        while a < self.done {
            match self.sink.write(&self.buf[a..self.done]) {
                Ok(0) => return Err(Fault::Write),
                Ok(n) => a += n,
                Err(e) if e.kind() == std::io::ErrorKind::Interrupted => continue,
                Err(_) => return Err(Fault::Write),
            }
        }
        self.buf.copy_within(self.done..self.len, 0);
        self.len -= self.done;
        self.done = 0;
        Ok(())
    }
    /// Drops what is provisional and writes the rest.
    pub fn finish(&mut self) -> Res {
        self.len = self.done;
        self.write_done()
    }
}

/// A symbol as handed to a writer.
#[derive(Clone, Copy)]
pub struct Sym<'a> {
    pub text: &'a [u8],
    pub form: u8,
}
pub const S_UNKNOWN: u8 = 0; // $0
pub const S_PLAIN: u8 = 1; // unquoted in text
pub const S_QUOTED: u8 = 2; // quoted, no byte to escape
pub const S_ESCAPED: u8 = 3; // quoted, with escapes

pub const UNKNOWN_SYM: Sym<'static> = Sym { text: &[], form: S_UNKNOWN };

/// Where an item stands.
#[derive(Clone, Copy)]
pub struct At {
    pub head: u64,
    pub top: u64,
    /// the container's kind around it
    pub k: u8,
}

#[derive(Clone, Copy, Default, Debug, PartialEq)]
pub struct Ts {
    pub prec: u8,
    pub year: u16,
    pub month: u8,
    pub day: u8,
    pub hour: u8,
    pub minute: u8,
    pub second: u8,
    pub digits: u8,
    pub unknown: bool,
    pub offset: i16,
    pub frac: u128,
}
pub const P_YEAR: u8 = 0;
pub const P_MONTH: u8 = 1;
pub const P_DAY: u8 = 2;
pub const P_MINUTE: u8 = 3;
pub const P_SECOND: u8 = 4;
pub const P_FRACTION: u8 = 5;

#[inline(always)]
pub fn days_in(y: u32, m: u32) -> u32 {
    const D: [u8; 16] = [0, 31, 28, 31, 30, 31, 30, 31, 31, 30, 31, 30, 31, 0, 0, 0];
    if m == 2 && (y % 4 == 0 && (y % 100 != 0 || y % 400 == 0)) {
        29
    } else {
        D[(m & 15) as usize] as u32
    }
}

/// Moves the fields by `by` minutes (at most 1,439 either way); false where the year leaves 1 to 9999.
#[inline(always)]
pub fn shift_minutes(t: &mut Ts, by: i32) -> bool {
    if by == 0 {
        return true;
    }
    let mut m = t.hour as i32 * 60 + t.minute as i32 + by;
    let mut ok = true;
    if m < 0 {
        m += 1440;
        if t.day > 1 {
            t.day -= 1;
        } else if t.month > 1 {
            t.month -= 1;
            t.day = days_in(t.year as u32, t.month as u32) as u8;
        } else {
            ok = t.year > 1;
            t.year -= 1;
            t.month = 12;
            t.day = 31;
        }
    } else if m >= 1440 {
        m -= 1440;
        if (t.day as u32) < days_in(t.year as u32, t.month as u32) {
            t.day += 1;
        } else if t.month < 12 {
            t.month += 1;
            t.day = 1;
        } else {
            ok = t.year < 9999;
            t.year += 1;
            t.month = 1;
            t.day = 1;
        }
    }
    t.hour = (m / 60) as u8;
    t.minute = (m % 60) as u8;
    ok
}

/// What takes the items of user values or of a declaration.
/// Slices have the slack after them. `field` and `ann` come before the item's own call.
pub trait Handler {
    /// an import slot without text is no fault
    const GAPS: bool;
    fn field(&mut self, s: Sym, place: u64);
    fn ann(&mut self, s: Sym, place: u64);
    fn null(&mut self, t: u8, at: At) -> Res;
    fn boolean(&mut self, b: bool, at: At) -> Res;
    fn int(&mut self, neg: bool, mag: u64, at: At) -> Res;
    /// `raw` is the canonical text of the int
    #[inline(always)]
    fn int_raw(&mut self, _raw: &[u8], neg: bool, mag: u64, at: At) -> Res {
        self.int(neg, mag, at)
    }
    fn int_big(&mut self, neg: bool, mag: u128, at: At) -> Res;
    fn float(&mut self, x: f64, at: At) -> Res;
    fn decimal(&mut self, neg: bool, coef: u128, exp: i32, at: At) -> Res;
    fn timestamp(&mut self, t: &Ts, at: At) -> Res;
    /// `raw` is the canonical text of the timestamp
    #[inline(always)]
    fn timestamp_raw(&mut self, _raw: &[u8], t: &Ts, at: At) -> Res {
        self.timestamp(t, at)
    }
    fn symbol(&mut self, s: Sym, at: At) -> Res;
    /// `clean`: known to hold no byte that `"` text escapes
    fn string(&mut self, s: &[u8], clean: bool, at: At) -> Res;
    fn clob(&mut self, s: &[u8], at: At) -> Res;
    fn blob(&mut self, s: &[u8], at: At) -> Res;
    fn begin(&mut self, kind: u8, at: At) -> Res;
    fn end(&mut self, kind: u8, parent: u8) -> Res;
}

/// Counts nothing, writes nothing.
pub struct Nothing;

impl Handler for Nothing {
    const GAPS: bool = false;
    #[inline(always)]
    fn field(&mut self, _: Sym, _: u64) {}
    #[inline(always)]
    fn ann(&mut self, _: Sym, _: u64) {}
    #[inline(always)]
    fn null(&mut self, _: u8, _: At) -> Res {
        Ok(())
    }
    #[inline(always)]
    fn boolean(&mut self, _: bool, _: At) -> Res {
        Ok(())
    }
    #[inline(always)]
    fn int(&mut self, _: bool, _: u64, _: At) -> Res {
        Ok(())
    }
    #[inline(always)]
    fn int_big(&mut self, _: bool, _: u128, _: At) -> Res {
        Ok(())
    }
    #[inline(always)]
    fn float(&mut self, _: f64, _: At) -> Res {
        Ok(())
    }
    #[inline(always)]
    fn decimal(&mut self, _: bool, _: u128, _: i32, _: At) -> Res {
        Ok(())
    }
    #[inline(always)]
    fn timestamp(&mut self, _: &Ts, _: At) -> Res {
        Ok(())
    }
    #[inline(always)]
    fn symbol(&mut self, _: Sym, _: At) -> Res {
        Ok(())
    }
    #[inline(always)]
    fn string(&mut self, _: &[u8], _: bool, _: At) -> Res {
        Ok(())
    }
    #[inline(always)]
    fn clob(&mut self, _: &[u8], _: At) -> Res {
        Ok(())
    }
    #[inline(always)]
    fn blob(&mut self, _: &[u8], _: At) -> Res {
        Ok(())
    }
    #[inline(always)]
    fn begin(&mut self, _: u8, _: At) -> Res {
        Ok(())
    }
    #[inline(always)]
    fn end(&mut self, _: u8, _: u8) -> Res {
        Ok(())
    }
}

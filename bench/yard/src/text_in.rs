//! The text reader: blanks, containers, annotations and symbols. `numbers`, `quoted` and `words` have the other tokens.

use crate::common::*;
use crate::float;
use crate::num::{self, parse_run, ts_fast, Num};
use crate::simd;
use crate::symbols::*;

mod numbers;
mod quoted;
mod words;

use words::*;

struct Ann {
    place: u64,
    off: usize,
    len: usize,
    form: u8,
    id: u32,
    by_id: bool,
}

pub struct TextReader<'r, 'c> {
    w: Win<'r>,
    lim: Limits,
    syms: Symbols<'c>,
    stack: Vec<u8>,
    k: u8,
    top: u64,
    scratch: Bytes,
    symbuf: Bytes,
    annbuf: Bytes,
    anns: Vec<Ann>,
    anncost: u64,
    /// there are annotations, or a symbol of the item is at fault
    special: bool,
    pend: Option<(Reason, u64)>,
    eof_fault: Option<u64>,
    pub values: u64,
}

// classes of first bytes
const X: u8 = 0; // no token
const ID: u8 = 1;
const DOLLAR: u8 = 2;
const DIGIT: u8 = 3;
const MINUS: u8 = 4;
const PLUS: u8 = 5;
const DQ: u8 = 6;
const SQ: u8 = 7;
const LBRACK: u8 = 8;
const LPAREN: u8 = 9;
const LBRACE: u8 = 10;
const OP: u8 = 11;
const RPAREN: u8 = 12;
const RBRACK: u8 = 13;

const fn classes() -> [u8; 256] {
    let mut t = [X; 256];
    let mut i = 0;
    while i < 256 {
        let c = i as u8;
        t[i] = match c {
            b'a'..=b'z' | b'A'..=b'Z' | b'_' => ID,
            b'$' => DOLLAR,
            b'0'..=b'9' => DIGIT,
            b'-' => MINUS,
            b'+' => PLUS,
            b'"' => DQ,
            b'\'' => SQ,
            b'[' => LBRACK,
            b'(' => LPAREN,
            b'{' => LBRACE,
            b')' => RPAREN,
            b']' => RBRACK,
            b'!' | b'#' | b'%' | b'&' | b'*' | b'.' | b'/' | b';' | b'<' | b'=' | b'>' | b'?' | b'@' | b'^' | b'`' | b'|' | b'~' => OP,
            _ => X,
        };
        i += 1;
    }
    t
}
static CLASS: [u8; 256] = classes();
static TERM: [bool; 256] = num::term();

#[inline(always)]
fn is_ws(c: u8) -> bool {
    c == b' ' || (9..=13).contains(&c)
}
#[inline(always)]
fn is_op(c: u8) -> bool {
    matches!(CLASS[c as usize], OP | MINUS | PLUS)
}

const CLOSER: [u8; 4] = [0, b']', b')', b'}'];

static P10: [u64; 9] = [1, 10, 100, 1000, 10000, 100000, 1000000, 10000000, 100000000];

/// The digits at the front of eight bytes: how many, and their value.
#[inline(always)]
fn eight(x: u64) -> (usize, u64) {
    let t = x ^ 0x3030_3030_3030_3030;
    let bad = ((t & 0x7f7f_7f7f_7f7f_7f7f) + 0x7676_7676_7676_7676 | t) & 0x8080_8080_8080_8080;
    let n8 = bad.trailing_zeros() & !7;
    let half = 32 - n8 / 2;
    let t = (t << half) << half;
    let t = (t.wrapping_mul(10)).wrapping_add(t >> 8);
    let a = (t & 0x0000_00ff_0000_00ff).wrapping_mul(0x000f_4240_0000_0064);
    let b = ((t >> 16) & 0x0000_00ff_0000_00ff).wrapping_mul(0x0000_2710_0000_0001);
    (n8 as usize / 8, a.wrapping_add(b) >> 32)
}

enum Flow {
    Value,
    Annotation,
    /// a marker, or nothing that is a user value
    Nothing,
}

impl<'r, 'c> TextReader<'r, 'c> {
    pub fn new(w: Win<'r>, lim: Limits, cat: &'c Catalog) -> Self {
        TextReader {
            w,
            lim,
            syms: Symbols::new(cat),
            stack: Vec::new(),
            k: TOP,
            top: 0,
            scratch: Bytes::default(),
            symbuf: Bytes::default(),
            annbuf: Bytes::default(),
            anns: Vec::new(),
            anncost: 0,
            special: false,
            pend: None,
            eof_fault: None,
            values: 0,
        }
    }

    // ---- blanks ----

    /// The first byte after blanks; 0 at the end of the input, too.
    #[inline(always)]
    fn blanks(&mut self) -> Res<u8> {
        let c = self.w.b(self.w.pos);
        if c > 0x20 && c != b'/' {
            return Ok(c);
        }
        if c == b' ' || c == b'\n' {
            let c = self.w.b(self.w.pos + 1);
            if c > 0x20 && c != b'/' {
                self.w.pos += 1;
                return Ok(c);
            }
        }
        self.blanks_slow()
    }

    #[inline(never)]
    fn blanks_slow(&mut self) -> Res<u8> {
        let mut p = self.w.pos;
        loop {
            let c = self.w.b(p);
            if c > 0x20 && c != b'/' {
                self.w.pos = p;
                return Ok(c);
            }
            if is_ws(c) {
                p += 1;
                // runs of spaces
                unsafe {
                    while (self.w.ptr(p) as *const u64).read_unaligned() == 0x2020_2020_2020_2020 {
                        p += 8;
                    }
                }
                continue;
            }
            self.w.pos = p;
            if c == b'/' {
                if p + 1 == self.w.end && self.w.more(p)? {
                    p = 0;
                    continue;
                }
                p = self.w.pos;
                match self.w.b(p + 1) {
                    b'/' => {
                        self.w.pos = p + 2;
                        loop {
                            let p = self.w.pos;
                            let n = unsafe { simd::find2(self.w.ptr(p), self.w.end - p, b'\n', b'\r') };
                            self.w.pos = p + n;
                            if self.w.pos < self.w.end || !self.w.more(self.w.pos)? {
                                break;
                            }
                        }
                    }
                    b'*' => {
                        let start = self.w.place(p);
                        self.w.pos = p + 2;
                        loop {
                            let p = self.w.pos;
                            let n = unsafe { simd::find2(self.w.ptr(p), self.w.end - p, b'*', b'*') };
                            self.w.pos = p + n;
                            if self.w.end - self.w.pos < 2 {
                                if !self.w.more(self.w.pos)? {
                                    self.eof_fault = Some(start);
                                    self.w.pos = self.w.end;
                                    return Ok(0);
                                }
                                continue;
                            }
                            if self.w.b(self.w.pos + 1) == b'/' {
                                self.w.pos += 2;
                                break;
                            }
                            self.w.pos += 1;
                        }
                    }
                    _ => return Ok(b'/'),
                }
                p = self.w.pos;
                continue;
            }
            if p == self.w.end {
                if self.w.more(p)? {
                    p = 0;
                    continue;
                }
                return Ok(0);
            }
            return Ok(c);
        }
    }

    /// The end of the input where something must come.
    #[cold]
    #[inline(never)]
    fn ended<T>(&self) -> Res<T> {
        refuse(Reason::Truncated, self.eof_fault.unwrap_or(self.w.place(self.w.end)))
    }

    /// After blanks gave a byte that can't stand here.
    #[cold]
    #[inline(never)]
    fn unexpected<T>(&self) -> Res<T> {
        if self.w.pos == self.w.end {
            return self.ended();
        }
        refuse(Reason::BadToken, self.w.place(self.w.pos))
    }

    /// At least `n` bytes from `pos` on, or all there are.
    #[inline(always)]
    fn ensure(&mut self, n: usize) -> Res {
        if self.w.end - self.w.pos < n {
            return self.ensure_slow(n);
        }
        Ok(())
    }
    #[cold]
    #[inline(never)]
    fn ensure_slow(&mut self, n: usize) -> Res {
        while self.w.end - self.w.pos < n && self.w.more(self.w.pos)? {}
        Ok(())
    }

    // ---- symbols of the item ----

    /// The item's own parts are whole: hands over the annotations, or refuses by its symbols.
    #[inline(always)]
    fn ready<H: Handler>(&mut self, h: &mut H) -> Res {
        if self.special {
            return self.ready_slow(h);
        }
        Ok(())
    }
    #[inline(never)]
    fn ready_slow<H: Handler>(&mut self, h: &mut H) -> Res {
        if let Some((r, p)) = self.pend {
            return refuse(r, p);
        }
        for a in &self.anns {
            let s = if a.by_id {
                match self.syms.resolve(a.id, H::GAPS) {
                    Ok(s) => s,
                    Err(r) => return refuse(r, a.place),
                }
            } else {
                Sym { text: self.annbuf.get(a.off, a.off + a.len), form: a.form }
            };
            h.ann(s, a.place);
        }
        self.drop_anns();
        Ok(())
    }
    fn drop_anns(&mut self) {
        self.anns.clear();
        self.annbuf.clear();
        self.anncost = 0;
        self.special = false;
    }

    /// Whether this struct is a declaration; its own symbols are then tested.
    #[cold]
    #[inline(never)]
    fn declares(&mut self) -> Res<bool> {
        let a = &self.anns[0];
        let d = if a.by_id {
            matches!(self.syms.resolve(a.id, true), Ok(s) if s.form != S_UNKNOWN && s.text == b"$ion_symbol_table")
        } else {
            self.annbuf.get(a.off, a.off + a.len) == b"$ion_symbol_table"
        };
        if d {
            for a in &self.anns {
                if a.by_id {
                    if let Err(r) = self.syms.resolve(a.id, true) {
                        return refuse(r, a.place);
                    }
                }
            }
            self.drop_anns();
        }
        Ok(d)
    }

    fn annotate(&mut self, place: u64, id: Option<u32>, text: Option<(usize, usize)>, form: u8) -> Res {
        let off = self.annbuf.len;
        let mut len = 0;
        if id.is_none() {
            match text {
                Some((a, b)) => {
                    len = b - a;
                    self.annbuf.put(self.w.slice(a, b));
                }
                None => {
                    len = self.symbuf.len;
                    self.annbuf.put(self.symbuf.all());
                }
            }
        }
        self.anncost += 16 + len as u64;
        if self.anncost > self.lim.scalar {
            return refuse(Reason::AnnotationLimit, place);
        }
        self.anns.push(Ann { place, off, len, form, id: id.unwrap_or(0), by_id: id.is_some() });
        self.special = true;
        Ok(())
    }

    /// What follows a symbol that ends at `p`: 0 a value's end (blanks passed up to the place),
    /// 1 two colons (up to the place after them), 2 not seen in the window.
    #[inline(always)]
    fn follow(&self, p: usize) -> (u8, usize) {
        let mut q = p;
        let mut c = self.w.b(q);
        while is_ws(c) {
            q += 1;
            c = self.w.b(q);
        }
        if c == b':' {
            if q + 1 < self.w.end {
                return if self.w.b(q + 1) == b':' { (1, q + 2) } else { (0, q) };
            }
            return (2, p);
        }
        if c > 0x20 && c != b'/' {
            return (0, q);
        }
        (2, p)
    }

    /// `pos` is after a symbol; whether two colons come, which are passed.
    #[inline(never)]
    fn follow_slow(&mut self) -> Res<bool> {
        let c = self.blanks()?;
        if c == b':' {
            self.ensure(2)?;
            if self.w.b(self.w.pos + 1) == b':' {
                self.w.pos += 2;
                return Ok(true);
            }
        }
        Ok(false)
    }

    // ---- the loop ----

    pub fn run<H: Handler>(&mut self, h: &mut H, declaration: bool) -> Res {
        let mut after = false;
        loop {
            if after {
                match self.k {
                    TOP | SEXP => {}
                    k => {
                        let c = self.blanks()?;
                        if c == b',' {
                            self.w.pos += 1;
                        } else if c == CLOSER[k as usize] {
                            self.close(h)?;
                            if declaration && self.stack.is_empty() {
                                return Ok(());
                            }
                            continue;
                        } else {
                            return self.unexpected();
                        }
                    }
                }
            }
            let mut c = self.blanks()?;
            match self.k {
                STRUCT => {
                    if c == b'}' {
                        self.close(h)?;
                        if declaration && self.stack.is_empty() {
                            return Ok(());
                        }
                        after = true;
                        continue;
                    }
                    self.field(h, c)?;
                    c = self.blanks()?;
                }
                TOP => {
                    self.top = self.w.place(self.w.pos);
                    if c == 0 && self.w.pos == self.w.end {
                        return match self.eof_fault {
                            Some(p) => refuse(Reason::Truncated, p),
                            None => Ok(()),
                        };
                    }
                }
                k => {
                    if c == CLOSER[k as usize] {
                        self.close(h)?;
                        if declaration && self.stack.is_empty() {
                            return Ok(());
                        }
                        after = true;
                        continue;
                    }
                }
            }
            // a value
            after = true;
            loop {
                match CLASS[c as usize] {
                    DIGIT => self.number(h)?,
                    ID => match self.ident(h)? {
                        Flow::Annotation => {
                            c = self.blanks()?;
                            continue;
                        }
                        _ => {}
                    },
                    DQ => self.string(h)?,
                    LBRACE => {
                        self.ensure(2)?;
                        if self.w.b(self.w.pos + 1) == b'{' {
                            self.lob(h)?;
                        } else {
                            after = false;
                            if self.stack.len() >= self.lim.depth as usize {
                                return refuse(Reason::DepthLimit, self.w.place(self.w.pos));
                            }
                            if self.k == TOP && !self.anns.is_empty() && self.declares()? {
                                self.w.pos += 1;
                                self.stack.push(TOP);
                                self.k = STRUCT;
                                let mut d = DeclBuilder::new(&self.syms, self.lim.symbols);
                                self.run(&mut d, true)?;
                                self.syms.apply(d.finish());
                                break;
                            }
                            self.open(h, STRUCT)?;
                        }
                    }
                    LBRACK => {
                        after = false;
                        self.open(h, LIST)?;
                    }
                    LPAREN => {
                        after = false;
                        self.open(h, SEXP)?;
                    }
                    SQ => match self.single(h)? {
                        Flow::Annotation => {
                            c = self.blanks()?;
                            continue;
                        }
                        _ => {}
                    },
                    MINUS => {
                        self.ensure(2)?;
                        if self.w.b(self.w.pos + 1).is_ascii_digit() {
                            self.number(h)?;
                        } else {
                            self.operator(h)?;
                        }
                    }
                    DOLLAR => match self.dollar(h)? {
                        Flow::Annotation => {
                            c = self.blanks()?;
                            continue;
                        }
                        Flow::Value => {}
                        Flow::Nothing => break,
                    },
                    PLUS | OP => self.operator(h)?,
                    _ => return self.unexpected(),
                }
                if after && self.k == TOP {
                    self.values += 1;
                }
                break;
            }
        }
    }

    #[inline(always)]
    fn at(&self, head: usize) -> At {
        At { head: self.w.place(head), top: self.top, k: self.k }
    }

    #[inline(always)]
    fn open<H: Handler>(&mut self, h: &mut H, kind: u8) -> Res {
        if self.stack.len() >= self.lim.depth as usize {
            return refuse(Reason::DepthLimit, self.w.place(self.w.pos));
        }
        self.ready(h)?;
        h.begin(kind, self.at(self.w.pos))?;
        self.w.pos += 1;
        self.stack.push(self.k);
        self.k = kind;
        Ok(())
    }

    #[inline(always)]
    fn close<H: Handler>(&mut self, h: &mut H) -> Res {
        self.w.pos += 1;
        let k = self.k;
        self.k = self.stack.pop().unwrap_or(TOP);
        h.end(k, self.k)?;
        if self.k == TOP && !H::GAPS {
            self.values += 1;
        }
        Ok(())
    }

    // ---- fields ----

    #[inline(always)]
    fn field<H: Handler>(&mut self, h: &mut H, c: u8) -> Res {
        if CLASS[c as usize] == ID {
            let s = self.w.pos;
            let n = unsafe { simd::ident(self.w.ptr(s)) };
            let p = s + n;
            // the common case: not a keyword, whole in the window, a colon after it
            if self.w.b(p) == b':' && p + 1 < self.w.end && self.w.b(p + 1) != b':' && n as u64 <= self.lim.scalar {
                let t = self.w.slice(s, p);
                if keyword(t) == 0 {
                    h.field(Sym { text: t, form: S_PLAIN }, self.w.place(s));
                    self.w.pos = p + 1;
                    return Ok(());
                }
            }
        }
        self.field_slow(h, c)
    }

    #[inline(never)]
    fn field_slow<H: Handler>(&mut self, h: &mut H, c: u8) -> Res {
        let place = self.w.place(self.w.pos);
        match CLASS[c as usize] {
            ID | DOLLAR => {
                let (s, p) = self.ident_token()?;
                let t = self.w.slice(s, p);
                if keyword(t) != 0 {
                    // `null.` is one token
                    if t == b"null" && self.w.b(p) == b'.' {
                        self.null_token()?;
                    }
                    return refuse(Reason::BadToken, place);
                }
                if let Some(id) = symbol_id(t) {
                    match self.syms.resolve(id, H::GAPS) {
                        Ok(s) => h.field(s, place),
                        Err(r) => {
                            self.pend = Some((r, place));
                            self.special = true;
                        }
                    }
                } else {
                    let form = if t[0] == b'$' { sym_form(t) } else { S_PLAIN };
                    h.field(Sym { text: t, form }, place);
                }
                self.w.pos = p;
            }
            DQ => {
                self.w.pos += 1;
                self.scratch.clear();
                self.decode(b'"', false, false, place)?;
                let t = self.scratch.all();
                h.field(Sym { text: t, form: sym_form(t) }, place);
            }
            SQ => {
                self.ensure(3)?;
                let p = self.w.pos;
                self.scratch.clear();
                if self.w.b(p + 1) == b'\'' && self.w.b(p + 2) == b'\'' {
                    self.long(place, false)?;
                } else {
                    self.w.pos += 1;
                    self.decode(b'\'', false, false, place)?;
                }
                let t = self.scratch.all();
                h.field(Sym { text: t, form: sym_form(t) }, place);
            }
            _ => return self.unexpected(),
        }
        if self.blanks()? != b':' {
            return self.unexpected();
        }
        self.ensure(2)?;
        if self.w.b(self.w.pos + 1) == b':' {
            return self.unexpected();
        }
        self.w.pos += 1;
        Ok(())
    }

    /// An identifier at `pos`, whole in the window: its bounds. `pos` stays.
    #[inline(always)]
    fn ident_token(&mut self) -> Res<(usize, usize)> {
        let s = self.w.pos;
        let n = unsafe { simd::ident(self.w.ptr(s)) };
        if n as u64 > self.lim.scalar {
            return refuse(Reason::ScalarLimit, self.w.place(s));
        }
        if s + n == self.w.end {
            return self.ident_token_slow();
        }
        Ok((s, s + n))
    }
    #[cold]
    #[inline(never)]
    fn ident_token_slow(&mut self) -> Res<(usize, usize)> {
        loop {
            let s = self.w.pos;
            let n = unsafe { simd::ident(self.w.ptr(s)) };
            if n as u64 > self.lim.scalar {
                return refuse(Reason::ScalarLimit, self.w.place(s));
            }
            if s + n < self.w.end || !self.w.more(s)? {
                return Ok((self.w.pos, self.w.pos + n));
            }
        }
    }

    /// `null` at `pos` with a point directly after it: the bounds of all up to the identifier's end.
    #[inline(never)]
    fn null_token(&mut self) -> Res<(usize, usize)> {
        loop {
            let s = self.w.pos;
            let n = 5 + unsafe { simd::ident(self.w.ptr(s + 5)) };
            if n as u64 > self.lim.scalar {
                return refuse(Reason::ScalarLimit, self.w.place(s));
            }
            if s + n < self.w.end || !self.w.more(s)? {
                return Ok((self.w.pos, self.w.pos + n));
            }
        }
    }

    // ---- scalars ----

    #[inline(always)]
    fn ident<H: Handler>(&mut self, h: &mut H) -> Res<Flow> {
        let (s, p) = self.ident_token()?;
        let t = self.w.slice(s, p);
        match keyword(t) {
            0 => {}
            k @ (KW_TRUE | KW_FALSE) => {
                self.ready(h)?;
                h.boolean(k == KW_TRUE, self.at(s))?;
                self.w.pos = p;
                return Ok(Flow::Value);
            }
            k => {
                self.keyword_value(h, s, p, k)?;
                return Ok(Flow::Value);
            }
        }
        self.symbol_text(h, s, p, S_PLAIN)
    }

    /// A symbol whose text is in the window from `s`, the token having ended at `p`.
    #[inline(always)]
    fn symbol_text<H: Handler>(&mut self, h: &mut H, s: usize, p: usize, form: u8) -> Res<Flow> {
        let (f, q) = self.follow(p);
        if f == 0 {
            self.ready(h)?;
            h.symbol(Sym { text: self.w.slice(s, p), form }, self.at(s))?;
            self.w.pos = q;
            return Ok(Flow::Value);
        }
        if f == 1 {
            let place = self.w.place(s);
            self.w.pos = q;
            self.annotate(place, None, Some((s, p)), form)?;
            return Ok(Flow::Annotation);
        }
        self.symbuf.clear();
        self.symbuf.put(self.w.slice(s, p));
        let place = self.w.place(s);
        self.w.pos = p;
        self.symbol_slow(h, place, form)
    }

    /// The same with the text in `symbuf`.
    #[inline(never)]
    fn symbol_slow<H: Handler>(&mut self, h: &mut H, place: u64, form: u8) -> Res<Flow> {
        if self.follow_slow()? {
            self.annotate(place, None, None, form)?;
            return Ok(Flow::Annotation);
        }
        self.ready(h)?;
        h.symbol(Sym { text: self.symbuf.all(), form }, At { head: place, top: self.top, k: self.k })?;
        Ok(Flow::Value)
    }

    #[inline(never)]
    fn keyword_value<H: Handler>(&mut self, h: &mut H, s: usize, p: usize, k: u8) -> Res {
        let (mut s, mut p) = (s, p);
        let mut ty = 0u8;
        if k == KW_NAN {
            if !self.lim.floats {
                return refuse(Reason::Float, self.w.place(s));
            }
            self.ready(h)?;
            h.float(f64::NAN, self.at(s))?;
            self.w.pos = p;
            return Ok(());
        }
        if self.w.b(p) == b'.' {
            (s, p) = self.null_token()?;
            match type_of(self.w.slice(s + 5, p)) {
                Some(t) => ty = t,
                None => return refuse(Reason::BadToken, self.w.place(s)),
            }
        }
        self.ready(h)?;
        h.null(ty, self.at(s))?;
        self.w.pos = p;
        Ok(())
    }

    /// `$` begins an identifier, a symbol id or a marker.
    #[inline(never)]
    fn dollar<H: Handler>(&mut self, h: &mut H) -> Res<Flow> {
        let (s, p) = self.ident_token()?;
        let t = self.w.slice(s, p);
        let place = self.w.place(s);
        if let Some(id) = symbol_id(t) {
            self.w.pos = p;
            if self.follow_slow()? {
                self.annotate(place, Some(id), None, 0)?;
                return Ok(Flow::Annotation);
            }
            self.ready(h)?;
            match self.syms.resolve(id, H::GAPS) {
                Ok(s) => h.symbol(s, At { head: place, top: self.top, k: self.k })?,
                Err(r) => return refuse(r, place),
            }
            return Ok(Flow::Value);
        }
        if self.k == TOP && self.anns.is_empty() && version_shape(t) {
            let right = t == b"$ion_1_0";
            self.symbuf.clear();
            self.symbuf.put(self.w.slice(s, p));
            self.w.pos = p;
            if self.follow_slow()? {
                self.annotate(place, None, None, S_QUOTED)?;
                return Ok(Flow::Annotation);
            }
            if !right {
                return refuse(Reason::BadVersion, place);
            }
            self.syms.reset();
            return Ok(Flow::Nothing);
        }
        let form = sym_form(t);
        self.symbol_text(h, s, p, form)
    }
}

//! Words that mean something: keywords, the names of types, and ids.

pub(super) const KW_NULL: u8 = 1;
pub(super) const KW_TRUE: u8 = 2;
pub(super) const KW_FALSE: u8 = 3;
pub(super) const KW_NAN: u8 = 4;

pub(super) const fn word(b: &[u8; 8]) -> u64 {
    u64::from_le_bytes(*b)
}
const W_NULL: u64 = word(b"null\0\0\0\0");
const W_TRUE: u64 = word(b"true\0\0\0\0");
const W_FALSE: u64 = word(b"false\0\0\0");
const W_NAN: u64 = word(b"nan\0\0\0\0\0");

/// Which keyword an identifier is; the slack is after it.
#[inline(always)]
pub(super) fn keyword(t: &[u8]) -> u8 {
    // SAFETY: eight bytes are readable
    let w = unsafe { (t.as_ptr() as *const u64).read_unaligned() };
    let n = 64 - 8 * t.len().min(8) as u32;
    let w = (w << n) >> n;
    // no branch on the length: it is anything
    if ((w == W_NULL) | (w == W_TRUE)) | ((w == W_FALSE) | (w == W_NAN)) {
        return match w {
            W_NULL => KW_NULL,
            W_TRUE => KW_TRUE,
            W_FALSE => KW_FALSE,
            _ => KW_NAN,
        };
    }
    0
}

pub(super) fn type_of(name: &[u8]) -> Option<u8> {
    Some(match name {
        b"null" => 0,
        b"bool" => 1,
        b"int" => 2,
        b"float" => 4,
        b"decimal" => 5,
        b"timestamp" => 6,
        b"symbol" => 7,
        b"string" => 8,
        b"clob" => 9,
        b"blob" => 10,
        b"list" => 11,
        b"sexp" => 12,
        b"struct" => 13,
        _ => return None,
    })
}

/// `$` and digits alone: the id, 2^31 standing for all above 2^31-1.
pub(super) fn symbol_id(t: &[u8]) -> Option<u32> {
    if t.len() < 2 || t[0] != b'$' {
        return None;
    }
    let mut v = 0u64;
    for &c in &t[1..] {
        if !c.is_ascii_digit() {
            return None;
        }
        v = (v * 10 + (c - b'0') as u64).min(1 << 31);
    }
    Some(v as u32)
}

//! Floats: the nearest double of a text, and the shortest text that reads as a double.

use std::num::FpCategory;

const TENS: [f64; 23] = [
    1e0, 1e1, 1e2, 1e3, 1e4, 1e5, 1e6, 1e7, 1e8, 1e9, 1e10, 1e11, 1e12, 1e13, 1e14, 1e15, 1e16, 1e17, 1e18, 1e19, 1e20, 1e21, 1e22,
];

/// The nearest double of `digits * 10^power`, where one rounding of two exact doubles gives it.
#[inline(always)]
pub fn exact(digits: u64, power: i64) -> Option<f64> {
    if digits > 1 << 53 || power.unsigned_abs() > 22 {
        return None;
    }
    let ten = TENS[power.unsigned_abs() as usize];
    Some(if power < 0 { digits as f64 / ten } else { digits as f64 * ten })
}

/// The nearest double of a run that is known to be a float, of any length; infinite where that is past the greatest.
/// The standard library keeps no exponent of more than six digits, so digits and exponent are brought together before.
pub fn of_text(run: &[u8]) -> f64 {
    let e = run.iter().position(|c| c | 0x20 == b'e').unwrap_or(run.len());
    let mut exponent = 0i64;
    for c in run[e..].iter().filter(|c| c.is_ascii_digit()) {
        exponent = (exponent * 10 + (c - b'0') as i64).min(1 << 50);
    }
    if run.get(e + 1) == Some(&b'-') {
        exponent = -exponent;
    }
    let digits = run[..e].iter().filter(|c| c.is_ascii_digit());
    let point = run[..e].iter().position(|&c| c == b'.').unwrap_or(e);
    exponent += run[..point].iter().filter(|c| c.is_ascii_digit()).count() as i64;
    let zeros = digits.clone().take_while(|&&c| c == b'0').count();
    exponent = (exponent - zeros as i64).clamp(-1000, 1000);
    let mut text = String::from(if run[0] == b'-' { "-0." } else { "0." });
    text.extend(digits.skip(zeros).map(|&c| c as char));
    text.push_str(&format!("0e{exponent}"));
    text.parse().unwrap()
}

/// The float of a body of none, four or eight octets.
#[inline(always)]
pub fn of_octets(body: &[u8]) -> Option<f64> {
    match body.len() {
        0 => Some(0.0),
        4 => Some(f32::from_be_bytes(body.try_into().unwrap()) as f64),
        8 => Some(f64::from_be_bytes(body.try_into().unwrap())),
        _ => None,
    }
}

/// Descriptor and body, the fewest octets that have the float: how many. Room of nine.
#[inline(always)]
pub unsafe fn put_octets(p: *mut u8, x: f64) -> usize {
    let short = if x.is_nan() { f32::from_bits(0x7FC0_0000) } else { x as f32 };
    if x.to_bits() == 0 {
        *p = 0x40;
        return 1;
    }
    if short as f64 == x || x.is_nan() {
        *p = 0x44;
        (p.add(1) as *mut [u8; 4]).write_unaligned(short.to_be_bytes());
        return 5;
    }
    *p = 0x48;
    (p.add(1) as *mut [u8; 8]).write_unaligned(x.to_be_bytes());
    9
}

/// The canonical text: how many bytes. Room of 32.
#[inline(always)]
pub unsafe fn put_text(p: *mut u8, x: f64, put_digits: unsafe fn(*mut u8, u64) -> usize) -> usize {
    let word: &[u8] = match x.classify() {
        FpCategory::Nan => b"nan",
        FpCategory::Infinite if x > 0.0 => b"+inf",
        FpCategory::Infinite => b"-inf",
        FpCategory::Zero if x.is_sign_positive() => b"0e0",
        FpCategory::Zero => b"-0e0",
        _ => return put_finite(p, x, put_digits),
    };
    std::ptr::copy_nonoverlapping(word.as_ptr(), p, word.len());
    word.len()
}

#[inline(always)]
unsafe fn put_finite(start: *mut u8, x: f64, put_digits: unsafe fn(*mut u8, u64) -> usize) -> usize {
    let mut p = start;
    if x < 0.0 {
        *p = b'-';
        p = p.add(1);
    }
    let (digits, power) = shortest(x.to_bits() & !(1 << 63));
    let n = put_digits(p.add(1), digits);
    *p = *p.add(1);
    *p.add(1) = b'.';
    p = p.add(if n == 1 { 1 } else { n + 1 });
    *p = b'e';
    let exponent = power + n as i32 - 1;
    if exponent < 0 {
        p = p.add(1);
        *p = b'-';
    }
    p = p.add(1);
    p.offset_from(start) as usize + put_digits(p, exponent.unsigned_abs() as u64)
}

/// Without the zeros at its end.
#[inline(always)]
fn stripped(mut digits: u64, mut power: i32) -> (u64, i32) {
    for (step, many) in [(100_000_000, 8), (10_000, 4), (100, 2), (10, 1)] {
        if digits % step == 0 {
            digits /= step;
            power += many;
        }
    }
    (digits, power)
}

/// Digits D and power p of a finite double above zero: p is the greatest at which the multiple of 10^p nearest to it (even
/// one of two), or the one above, reads as it, and D is that multiple. As in Giulietti's Schubfach: at power k some multiple
/// reads, and at k + 1 at most one does, so that zeros at its end are all there is to take off.
#[inline(always)]
fn shortest(bits: u64) -> (u64, i32) {
    let (fraction, biased) = (bits & ((1 << 52) - 1), (bits >> 52) as i32);
    let (c, q) = if biased == 0 { (fraction, -1074) } else { (fraction | 1 << 52, biased - 1075) };
    if (-52..=0).contains(&q) && c & ((1 << -q) - 1) == 0 {
        return stripped(c >> -q, 0);
    }
    // in quarters of 10^k: where what reads as this float begins, itself, and where that ends
    let is_closer_below = fraction == 0 && biased > 1;
    let k = (q * 1_262_611 - if is_closer_below { 524_031 } else { 0 }) >> 22;
    let h = q + ((-k * 1_741_647) >> 19) + 1;
    let ten = POWERS[(-k - LEAST) as usize];
    let low = round_to_odd(ten, (4 * c - 2 + is_closer_below as u64) << h) + (c & 1);
    let mid = round_to_odd(ten, (4 * c) << h);
    let high = round_to_odd(ten, (4 * c + 2) << h) - (c & 1);
    let s = mid / 4;
    let tens = s / 10;
    let (below, above) = (low <= 40 * tens, 40 * tens + 40 <= high);
    if below != above {
        return stripped(tens + above as u64, k + 1);
    }
    let (below, above) = (low <= 4 * s, 4 * s + 4 <= high);
    let up = if below != above { above } else { mid > 4 * s + 2 || (mid == 4 * s + 2 && s & 1 == 1) };
    (s + up as u64, k)
}

/// The upper 64 bits of a product of 192, the last of them set where a bit below is: but not the lowest of the next 64 alone,
/// which comes of the rounding of a power.
#[inline(always)]
fn round_to_odd((high, low): (u64, u64), c: u64) -> u64 {
    let lower = (low as u128 * c as u128) >> 64;
    let upper = high as u128 * c as u128 + lower;
    (upper >> 64) as u64 | ((upper as u64 > 1) as u64)
}

const LEAST: i32 = -292;
const POWER_COUNT: usize = 617;

/// The first 128 bits of 10^k, for k from `LEAST` on, rounded up.
static POWERS: [(u64, u64); POWER_COUNT] = powers();

const fn powers() -> [(u64, u64); POWER_COUNT] {
    let mut table = [(0, 0); POWER_COUNT];
    // 10^k, the least limb first
    let mut limbs = [0u64; LIMBS];
    limbs[0] = 1;
    let mut k = 0;
    while k < POWER_COUNT as i32 + LEAST {
        table[(k - LEAST) as usize] = first_bits(&limbs, false);
        let (mut i, mut carry) = (0, 0u128);
        while i < LIMBS {
            carry += limbs[i] as u128 * 10;
            limbs[i] = carry as u64;
            carry >>= 64;
            i += 1;
        }
        k += 1;
    }
    // 2^1279 / 10^-k, which is never whole, and of 300 bits at least
    limbs = [0; LIMBS];
    limbs[LIMBS - 1] = 1 << 63;
    k = -1;
    while k >= LEAST {
        let (mut i, mut rest) = (LIMBS, 0u128);
        while i > 0 {
            i -= 1;
            rest = rest << 64 | limbs[i] as u128;
            limbs[i] = (rest / 10) as u64;
            rest %= 10;
        }
        table[(k - LEAST) as usize] = first_bits(&limbs, true);
        k -= 1;
    }
    table
}

const LIMBS: usize = 20;

/// The first 128 bits of a number, rounded up; `more` says that it goes on behind its limbs.
const fn first_bits(limbs: &[u64; LIMBS], more: bool) -> (u64, u64) {
    let mut top = LIMBS - 1;
    while limbs[top] == 0 {
        top -= 1;
    }
    let second = if top > 0 { limbs[top - 1] } else { 0 };
    let third = if top > 1 { limbs[top - 2] } else { 0 };
    let shift = limbs[top].leading_zeros();
    let mut first = (limbs[top] as u128) << 64 | second as u128;
    let mut rest = third;
    if shift > 0 {
        first = first << shift | (third >> (64 - shift)) as u128;
        rest = third << shift;
    }
    let mut is_exact = rest == 0 && !more;
    let mut i = 0;
    while i + 2 < top {
        is_exact = is_exact && limbs[i] == 0;
        i += 1;
    }
    first += !is_exact as u128;
    ((first >> 64) as u64, first as u64)
}

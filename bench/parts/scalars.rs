// Plain Rust for the comparison of scalars in docs/SPEED.md: the same readings and writings, with the same checks. It shares nothing
// with `crates/`.
// Build: rustc -O -C target-cpu=x86-64-v2 scalars.rs
use std::fmt::Write;
use std::hint::black_box;

const TURNS: usize = 1_000_000;

#[derive(Clone, Copy)]
enum Reason {
    BadToken,
    Range,
    Float,
    BadTimestamp,
}

struct Int {
    negative: bool,
    magnitude: u128,
}

#[derive(Clone, Copy)]
struct Decimal {
    negative: bool,
    coefficient: u128,
    exponent: i32,
}

fn digit(byte: u8) -> u32 {
    (byte as char).to_digit(16).unwrap_or(99)
}

// The digits at the front, single underscores between two of them: the number where it fits, how many, and the rest.
fn digits(mut value: Option<u128>, base: u32, bytes: &[u8]) -> Option<(Option<u128>, usize, &[u8])> {
    let mut count = 0;
    let mut after = false;
    let mut at = 0;
    while at < bytes.len() {
        let d = digit(bytes[at]);
        if d < base {
            value = value.and_then(|v| v.checked_mul(base as u128)).and_then(|v| v.checked_add(d as u128));
            count += 1;
            after = true;
        } else if bytes[at] == b'_' && after {
            after = false;
        } else {
            break;
        }
        at += 1;
    }
    after.then(|| (value, count, &bytes[at..]))
}

fn whole(bytes: &[u8]) -> Option<(Option<u128>, usize, &[u8])> {
    match bytes {
        [b'0', b'0'..=b'9' | b'_', ..] => None,
        _ => digits(Some(0), 10, bytes),
    }
}

fn sign(run: &[u8]) -> (bool, &[u8]) {
    match run {
        [b'-', rest @ ..] => (true, rest),
        _ => (false, run),
    }
}

fn int_from_text(run: &[u8]) -> Result<Int, Reason> {
    let (negative, bytes) = sign(run);
    let read = match bytes {
        [b'0', b'x' | b'X', rest @ ..] => digits(Some(0), 16, rest),
        [b'0', b'b' | b'B', rest @ ..] => digits(Some(0), 2, rest),
        _ => whole(bytes),
    };
    match read {
        Some((number, _, [])) => {
            let magnitude = number.ok_or(Reason::Range)?;
            Ok(Int { negative: negative && magnitude > 0, magnitude })
        }
        _ => Err(Reason::BadToken),
    }
}

fn decimal_from_text(run: &[u8]) -> Result<Decimal, Reason> {
    let (negative, bytes) = sign(run);
    let (mut number, _, mut rest) = whole(bytes).ok_or(Reason::BadToken)?;
    let mut after = 0i128;
    let mut point = false;
    if let [b'.', tail @ ..] = rest {
        point = true;
        rest = tail;
        if tail.first().is_some_and(u8::is_ascii_digit) {
            let (n, count, tail) = digits(number, 10, tail).ok_or(Reason::BadToken)?;
            (number, after, rest) = (n, count as i128, tail);
        }
    }
    let mut exponent = 0i128;
    match rest {
        [] if point => {}
        [mark @ (b'd' | b'D' | b'e' | b'E'), tail @ ..] => {
            let (minus, tail) = match tail {
                [b'-', tail @ ..] => (true, tail),
                [b'+', tail @ ..] => (false, tail),
                _ => (false, tail),
            };
            if tail.is_empty() || !tail.iter().all(u8::is_ascii_digit) {
                return Err(Reason::BadToken);
            }
            if matches!(mark, b'e' | b'E') {
                return Err(Reason::Float);
            }
            for byte in tail {
                exponent = (exponent * 10 + (byte - b'0') as i128).min(1 << 80);
            }
            if minus {
                exponent = -exponent;
            }
        }
        _ => return Err(Reason::BadToken),
    }
    let exponent = exponent - after;
    if exponent.unsigned_abs() > 0x7FFF_FFFF {
        return Err(Reason::Range);
    }
    Ok(Decimal { negative, coefficient: number.ok_or(Reason::Range)?, exponent: exponent as i32 })
}

#[derive(Clone, Copy, PartialEq)]
enum Precision {
    Year,
    Month,
    Day,
    Minute,
    Second,
    Fraction(u8),
}

#[derive(Clone, Copy)]
struct Timestamp {
    precision: Precision,
    year: u16,
    month: u8,
    day: u8,
    hour: u8,
    minute: u8,
    second: u8,
    fraction: u128,
    offset: Option<i16>,
}

fn number(bytes: &[u8]) -> Option<u16> {
    let mut value = 0;
    for byte in bytes {
        if !byte.is_ascii_digit() {
            return None;
        }
        value = value * 10 + (byte - b'0') as u16;
    }
    Some(value)
}

fn last_day(year: u16, month: u8) -> u8 {
    match month {
        2 if year % 4 == 0 && (year % 100 != 0 || year % 400 == 0) => 29,
        2 => 28,
        4 | 6 | 9 | 11 => 30,
        _ => 31,
    }
}

fn timestamp_from_text(run: &[u8]) -> Result<Timestamp, Reason> {
    let mut t = Timestamp {
        precision: Precision::Year,
        year: 1,
        month: 1,
        day: 1,
        hour: 0,
        minute: 0,
        second: 0,
        fraction: 0,
        offset: None,
    };
    let bad = Reason::BadToken;
    t.year = number(run.get(..4).ok_or(bad)?).ok_or(bad)?;
    match run[4..] {
        [b'T'] => {}
        [b'-', _, _, b'T'] => {
            t.precision = Precision::Month;
            t.month = number(&run[5..7]).ok_or(bad)? as u8;
        }
        [b'-', _, _, b'-', _, _] | [b'-', _, _, b'-', _, _, b'T'] => {
            t.precision = Precision::Day;
            t.month = number(&run[5..7]).ok_or(bad)? as u8;
            t.day = number(&run[8..10]).ok_or(bad)? as u8;
        }
        [b'-', _, _, b'-', _, _, b'T', _, _, b':', _, _, ..] => {
            t.month = number(&run[5..7]).ok_or(bad)? as u8;
            t.day = number(&run[8..10]).ok_or(bad)? as u8;
            t.hour = number(&run[11..13]).ok_or(bad)? as u8;
            t.minute = number(&run[14..16]).ok_or(bad)? as u8;
            return time(t, &run[16..]);
        }
        _ => return Err(bad),
    }
    check(t)
}

fn time(mut t: Timestamp, mut rest: &[u8]) -> Result<Timestamp, Reason> {
    let bad = Reason::BadToken;
    t.precision = Precision::Minute;
    let mut count = 0;
    if let [b':', _, _, tail @ ..] = rest {
        t.precision = Precision::Second;
        t.second = number(&rest[1..3]).ok_or(bad)? as u8;
        rest = tail;
        if let [b'.', tail @ ..] = rest {
            count = tail.iter().take_while(|b| b.is_ascii_digit()).count();
            if count == 0 {
                return Err(bad);
            }
            let mut value: u128 = 0;
            for byte in tail[..count].iter().take(38) {
                value = value * 10 + (byte - b'0') as u128;
            }
            t.fraction = value;
            t.precision = Precision::Fraction(count.min(38) as u8);
            rest = &tail[count..];
        }
    }
    let (hours, minutes, negative) = match rest {
        [b'Z'] => (0, 0, false),
        [s @ (b'+' | b'-'), _, _, b':', _, _] => {
            (number(&rest[1..3]).ok_or(bad)?, number(&rest[4..6]).ok_or(bad)?, *s == b'-')
        }
        _ => return Err(bad),
    };
    if count > 38 {
        return Err(Reason::Range);
    }
    if hours > 23 || minutes > 59 {
        return Err(Reason::BadTimestamp);
    }
    let offset = (60 * hours + minutes) as i16;
    t.offset = match (negative, offset) {
        (true, 0) => None,
        (true, m) => Some(-m),
        (false, m) => Some(m),
    };
    let t = check(t)?;
    // The year in UTC.
    let minute = t.hour as i16 * 60 + t.minute as i16 - t.offset.unwrap_or(0);
    let first = (t.year, t.month, t.day) == (1, 1, 1) && minute < 0;
    let last = (t.year, t.month, t.day) == (9999, 12, 31) && minute >= 1440;
    if first || last { Err(Reason::BadTimestamp) } else { Ok(t) }
}

fn check(t: Timestamp) -> Result<Timestamp, Reason> {
    let date = (1..=9999).contains(&t.year) && (1..=12).contains(&t.month) && t.day >= 1 && t.day <= last_day(t.year, t.month);
    if date && t.hour < 24 && t.minute < 60 && t.second < 60 { Ok(t) } else { Err(Reason::BadTimestamp) }
}

// A text on the stack, as the other program has.
struct Text {
    bytes: [u8; 64],
    len: usize,
}

impl Write for Text {
    fn write_str(&mut self, s: &str) -> std::fmt::Result {
        self.bytes[self.len..self.len + s.len()].copy_from_slice(s.as_bytes());
        self.len += s.len();
        Ok(())
    }
}

impl Text {
    fn push(&mut self, byte: u8) {
        self.bytes[self.len] = byte;
        self.len += 1;
    }

    fn two(&mut self, n: u8) {
        self.push(b'0' + n / 10);
        self.push(b'0' + n % 10);
    }
}

fn timestamp_to_text(t: Timestamp) -> Text {
    let mut text = Text { bytes: [0; 64], len: 0 };
    text.two((t.year / 100) as u8);
    text.two((t.year % 100) as u8);
    if t.precision == Precision::Year {
        text.push(b'T');
        return text;
    }
    text.push(b'-');
    text.two(t.month);
    if t.precision == Precision::Month {
        text.push(b'T');
        return text;
    }
    text.push(b'-');
    text.two(t.day);
    if t.precision == Precision::Day {
        return text;
    }
    text.push(b'T');
    text.two(t.hour);
    text.push(b':');
    text.two(t.minute);
    if t.precision != Precision::Minute {
        text.push(b':');
        text.two(t.second);
    }
    if let Precision::Fraction(digits) = t.precision {
        text.push(b'.');
        let mut rest = t.fraction;
        let end = text.len + digits as usize;
        for place in (text.len..end).rev() {
            text.bytes[place] = b'0' + (rest % 10) as u8;
            rest /= 10;
        }
        text.len = end;
    }
    match t.offset {
        None => text.write_str("-00:00").unwrap(),
        Some(0) => text.push(b'Z'),
        Some(minutes) => {
            text.push(if minutes < 0 { b'-' } else { b'+' });
            text.two((minutes.unsigned_abs() / 60) as u8);
            text.push(b':');
            text.two((minutes.unsigned_abs() % 60) as u8);
        }
    }
    text
}

// Decimal digits, in 64 bits where these hold the number.
fn decimal_digits(mut n: u128, digits: &mut [u8; 40]) -> usize {
    let mut at = 40;
    while n > u64::MAX as u128 {
        at -= 1;
        digits[at] = b'0' + (n % 10) as u8;
        n /= 10;
    }
    let mut n = n as u64;
    loop {
        at -= 1;
        digits[at] = b'0' + (n % 10) as u8;
        n /= 10;
        if n == 0 {
            return at;
        }
    }
}

fn decimal_to_text(d: Decimal) -> Text {
    let mut text = Text { bytes: [0; 64], len: 0 };
    if d.negative {
        text.push(b'-');
    }
    let mut buffer = [0; 40];
    let at = decimal_digits(d.coefficient, &mut buffer);
    let digits = &buffer[at..];
    if (-38..=0).contains(&d.exponent) {
        let places = -d.exponent as usize;
        if digits.len() > places {
            for byte in &digits[..digits.len() - places] {
                text.push(*byte);
            }
            text.push(b'.');
            for byte in &digits[digits.len() - places..] {
                text.push(*byte);
            }
        } else {
            text.push(b'0');
            text.push(b'.');
            for _ in digits.len()..places {
                text.push(b'0');
            }
            for byte in digits {
                text.push(*byte);
            }
        }
    } else {
        for byte in digits {
            text.push(*byte);
        }
        text.push(b'd');
        if d.exponent < 0 {
            text.push(b'-');
        }
        let at = decimal_digits(d.exponent.unsigned_abs() as u128, &mut buffer);
        for byte in &buffer[at..] {
            text.push(*byte);
        }
    }
    text
}

fn main() {
    let words: Vec<String> = std::env::args().skip(1).collect();
    let mut sum: u64 = 0;
    let rest = &words[1..];
    match words[0].as_str() {
        "int" => {
            for _ in 0..TURNS {
                for word in rest {
                    sum = sum.wrapping_add(match int_from_text(black_box(word.as_bytes())) {
                        Ok(int) => int.magnitude.leading_zeros() as u64 + (black_box(int.negative) as u64 & 0),
                        Err(_) => 1,
                    });
                }
            }
        }
        "decimal" => {
            for _ in 0..TURNS {
                for word in rest {
                    sum = sum.wrapping_add(match decimal_from_text(black_box(word.as_bytes())) {
                        Ok(d) => d.coefficient.leading_zeros() as u64 + d.exponent.unsigned_abs() as u64 + (black_box(d.negative) as u64 & 0),
                        Err(_) => 1,
                    });
                }
            }
        }
        "timestamp" => {
            for _ in 0..TURNS {
                for word in rest {
                    sum = sum.wrapping_add(match timestamp_from_text(black_box(word.as_bytes())) {
                        Ok(t) => t.fraction.leading_zeros() as u64 + t.second as u64 + t.day as u64,
                        Err(_) => 1,
                    });
                }
            }
        }
        "decimal_text" => {
            let decimals: Vec<Decimal> = rest.iter().filter_map(|word| decimal_from_text(word.as_bytes()).ok()).collect();
            for turn in 0..TURNS {
                let text = decimal_to_text(decimals[(sum.wrapping_add(turn as u64) % 3) as usize]);
                sum = sum.wrapping_add(text.len as u64 + text.bytes[text.len / 2] as u64);
            }
        }
        _ => {
            let moments: Vec<Timestamp> = rest.iter().filter_map(|word| timestamp_from_text(word.as_bytes()).ok()).collect();
            for turn in 0..TURNS {
                let text = timestamp_to_text(moments[(sum.wrapping_add(turn as u64) % 3) as usize]);
                sum = sum.wrapping_add(text.len as u64 + text.bytes[text.len / 2] as u64);
            }
        }
    }
    std::process::exit((sum % 251) as i32);
}

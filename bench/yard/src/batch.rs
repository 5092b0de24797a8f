//! `yard batch`: one case a line, one result a line.
//! `TO DEPTH SCALAR SYMBOLS VALUE 1 CATALOGUE|- INPUT|-`: what to write (`text`, `pretty`, `binary`, `nothing`, `other`), limits,
//! the form of the output (there is one), and the bytes of a catalogue and of the input in hexadecimal. `--floats` holds for
//! all lines.

use crate::common::*;
use crate::run::*;
use crate::symbols::Catalog;
use std::io::{Read, Write};

fn unhex(s: &[u8]) -> Option<Vec<u8>> {
    if s == b"-" {
        return Some(Vec::new());
    }
    if s.len() % 2 != 0 {
        return None;
    }
    let d = |c: u8| (c as char).to_digit(16);
    s.chunks(2).map(|p| Some((d(p[0])? << 4 | d(p[1])?) as u8)).collect()
}

fn hex(b: &[u8], out: &mut Vec<u8>) {
    if b.is_empty() {
        out.push(b'-');
    }
    for &c in b {
        out.push(b"0123456789abcdef"[(c >> 4) as usize]);
        out.push(b"0123456789abcdef"[(c & 15) as usize]);
    }
}

fn put_fault(f: Fault, out: &mut Vec<u8>) {
    match f {
        Fault::Refused(r, p) => {
            let _ = write!(out, "{} {}", r.name(), p);
        }
        Fault::InputLimit => out.extend_from_slice(b"InputLimit 281474976710656"),
        Fault::Read => out.extend_from_slice(b"ReadFault 0"),
        Fault::Write => out.extend_from_slice(b"WriteFault 0"),
    }
}

fn case(line: &[u8], given: Limits, out: &mut Vec<u8>) -> Option<()> {
    let mut f = line.split(|&c| c == b' ');
    let to = match f.next()? {
        b"text" => To::Text,
        b"pretty" => To::Pretty,
        b"binary" => To::Binary,
        b"nothing" => To::Nothing,
        b"other" => To::Other,
        _ => return None,
    };
    let mut num = || -> Option<u64> { std::str::from_utf8(f.next()?).ok()?.parse().ok() };
    let lim = Limits {
        depth: u32::try_from(num()?).ok()?,
        scalar: num()?,
        symbols: num()?,
        value: num()?,
        ..given
    };
    if f.next()? != b"1" {
        return None;
    }
    let cat = unhex(f.next()?)?;
    let input = unhex(f.next()?)?;
    if f.next().is_some() {
        return None;
    }
    let cat = if cat.is_empty() {
        Catalog::default()
    } else {
        match load_catalog(lim, &mut &cat[..]) {
            Ok(c) => c,
            Err(e) => {
                out.extend_from_slice(b"catalog ");
                put_fault(e, out);
                return Some(());
            }
        }
    };
    // no greater window than the case needs
    let lim = Limits { window: lim.window.min(input.len() + 1), ..lim };
    let mut o = Vec::new();
    match run(&cat, lim, to, &mut &input[..], &mut o) {
        Ok(s) => {
            let _ = write!(out, "ok {} {} ", s.values, if s.binary { "binary" } else { "text" });
        }
        Err(e) => {
            out.extend_from_slice(b"refused ");
            put_fault(e, out);
            out.push(b' ');
        }
    }
    hex(&o, out);
    Some(())
}

/// `given` has the windows, and whether floats are read.
pub fn batch(given: Limits, input: &mut dyn Read, output: &mut dyn Write) -> std::io::Result<()> {
    let mut buf: Vec<u8> = Vec::new();
    let mut tmp = vec![0u8; 65536];
    let mut out = Vec::new();
    loop {
        let n = input.read(&mut tmp)?;
        let scanned = buf.len();
        buf.extend_from_slice(&tmp[..n]);
        if n == 0 && !buf.is_empty() {
            buf.push(b'\n');
        }
        let mut a = 0;
        let mut from = scanned;
        while let Some(i) = buf[from..].iter().position(|&c| c == b'\n') {
            let e = from + i;
            let line = &buf[a..e];
            let line = line.strip_suffix(b"\r").unwrap_or(line);
            if !line.is_empty() {
                if case(line, given, &mut out).is_none() {
                    out.extend_from_slice(b"error not a case");
                }
                out.push(b'\n');
            }
            a = e + 1;
            from = a;
        }
        buf.drain(..a);
        output.write_all(&out)?;
        out.clear();
        if n == 0 {
            return Ok(());
        }
    }
}

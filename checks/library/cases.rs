//! Answers calls that it reads from standard input, as common.py says; with the word `loaded`, by a `Catalog`, and with
//! `parts`, but for binary, in parts.
use cozgelt::{check, check_with, to_binary, to_binary_with, to_text, to_text_with, Catalog, Error, Limits, Profile};
use cozgelt::{Parts, PartsError, To};
use std::io::{self, BufRead, Read, Write};

/// Gives a few bytes, and then more at a time.
struct Few<'a>(&'a [u8], usize);

impl Read for Few<'_> {
    fn read(&mut self, into: &mut [u8]) -> io::Result<usize> {
        self.1 = self.1 * 3 / 2 + 1;
        let most = self.1.min(into.len());
        self.0.read(&mut into[..most])
    }
}

fn in_parts(to: To, by: Profile, stream: &[u8], tables: &[u8], limits: &Limits) -> Result<(Vec<u8>, u64), Error> {
    let catalog = Catalog::load(tables, limits)?;
    let mut parts = Parts::new(Few(stream, 0), to, limits)?.profile(by).catalog(&catalog)?;
    let mut joined = Vec::new();
    for output in parts.by_ref() {
        match output {
            Ok(output) => joined.extend(output),
            Err(PartsError::Call(Error::Refused(mut refusal))) => {
                joined.append(&mut refusal.output);
                refusal.output = joined;
                return Err(Error::Refused(refusal));
            }
            Err(PartsError::Call(error)) => return Err(error),
            Err(other) => panic!("{other}"),
        }
    }
    let values = if to == To::Nothing { parts.values() } else { 0 };
    Ok((joined, values))
}

fn by_handle(name: &str, by: Profile, stream: &[u8], tables: &[u8], limits: &Limits) -> Result<(Vec<u8>, u64), Error> {
    let catalog = Catalog::load(tables, limits)?;
    match name {
        "check" => catalog.check(by, stream, limits).map(|values| (Vec::new(), values)),
        "to_text" => catalog.to_text(by, stream, limits).map(|text| (text, 0)),
        _ => catalog.to_binary(by, stream, limits).map(|binary| (binary, 0)),
    }
}

fn main() -> io::Result<()> {
    let word = std::env::args().nth(1);
    let (is_loaded, is_cut) = (word.as_deref() == Some("loaded"), word.as_deref() == Some("parts"));
    let (mut input, mut output) = (io::stdin().lock(), io::stdout().lock());
    let mut line = String::new();
    while input.read_line(&mut line)? > 0 {
        let mut words = line.split_whitespace();
        let name = words.next().unwrap();
        let n: Vec<u64> = words.map(|word| word.parse().unwrap()).collect();
        let floats = n[0] == 1;
        let limits = Limits::default().depth(n[1] as u32).scalar(n[2]).symbols(n[3]).value(n[4]).input(n[5]);
        let (mut catalog, mut stream) = (vec![0; n[6] as usize], vec![0; n[7] as usize]);
        input.read_exact(&mut catalog)?;
        input.read_exact(&mut stream)?;
        let by = Profile::Floats;
        let profile = if floats { by } else { Profile::Strict };
        let answer = match (name, floats) {
            ("check", _) if is_cut => in_parts(To::Nothing, profile, &stream, &catalog, &limits),
            ("to_text", _) if is_cut => in_parts(To::Text, profile, &stream, &catalog, &limits),
            _ if is_loaded => by_handle(name, profile, &stream, &catalog, &limits),
            ("check", false) => check(&stream, &catalog, &limits).map(|values| (Vec::new(), values)),
            ("check", true) => check_with(by, &stream, &catalog, &limits).map(|values| (Vec::new(), values)),
            ("to_text", false) => to_text(&stream, &catalog, &limits).map(|text| (text, 0)),
            ("to_text", true) => to_text_with(by, &stream, &catalog, &limits).map(|text| (text, 0)),
            (_, false) => to_binary(&stream, &catalog, &limits).map(|binary| (binary, 0)),
            (_, true) => to_binary_with(by, &stream, &catalog, &limits).map(|binary| (binary, 0)),
        };
        let (status, reason, place, values, bytes) = match answer {
            Ok((bytes, values)) => (0, "-", 0, values, bytes),
            Err(Error::Refused(refusal)) => (1, refusal.reason.name(), refusal.place, 0, refusal.output),
            Err(Error::CatalogRefused(reason, place)) => (6, reason.name(), place, 0, Vec::new()),
            Err(_) => (5, "-", 0, 0, Vec::new()),
        };
        writeln!(output, "{status} {reason} {place} {values} {}", bytes.len())?;
        output.write_all(&bytes)?;
        line.clear();
    }
    Ok(())
}

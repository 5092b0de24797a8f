//! The words of the command line.

use crate::common::Limits;
use crate::run::To;
use std::ffi::OsString;

pub const USAGE: &str = "Usage: yard show [--pretty]|check|convert [--catalog FILE] [--depth N] [--scalar N] [--symbols N] [--value N] [--floats] [FILE]\n       yard batch [--window N] [--chunk N] [--floats]\n";

pub struct Asked {
    pub to: To,
    pub limits: Limits,
    pub catalog: Option<String>,
    /// standard input where there is none
    pub file: Option<String>,
}

pub enum Wants {
    Help,
    Batch(Limits),
    Run(Asked),
}

/// What the words ask for, or what is wrong with them.
pub fn read(words: impl Iterator<Item = OsString>) -> Result<Wants, String> {
    let words: Result<Vec<_>, _> = words.map(OsString::into_string).collect();
    let mut words = words.map_err(|_| "a word is not UTF-8")?.into_iter().peekable();
    let command = words.next();
    let to = match command.as_deref() {
        None | Some("show") => Some(To::Text),
        Some("check") => Some(To::Nothing),
        Some("convert") => Some(To::Other),
        Some("batch") => None,
        Some("-h" | "--help" | "help") => return Ok(Wants::Help),
        Some(w) => return Err(format!("unrecognized subcommand '{w}'")),
    };
    let mut asked = Asked { to: to.unwrap_or(To::Nothing), limits: Limits::default(), catalog: None, file: None };
    let (mut seen, mut files, mut only_files) = (Vec::new(), 0, false);
    while let Some(w) = words.next() {
        if !only_files && w == "--" {
            only_files = true;
        } else if only_files || !w.starts_with('-') || w == "-" {
            files += 1;
            if files > 1 || to.is_none() {
                return Err(format!("unexpected argument '{w}'"));
            }
            asked.file = if w == "-" && !only_files { None } else { Some(w) };
        } else if w == "--help" || w == "-h" {
            return Ok(Wants::Help);
        } else {
            let (name, value) = match w.split_once('=') {
                Some((n, v)) => (n.to_string(), Some(v.to_string())),
                None => (w, None),
            };
            if seen.contains(&name) {
                return Err(format!("the argument '{name}' cannot be used multiple times"));
            }
            let value = value.or_else(|| words.next_if(|v| name != "--floats" && name != "--pretty" && !v.starts_with("--")));
            if name == "--pretty" && value.is_none() && asked.to == To::Text {
                asked.to = To::Pretty;
            } else {
                option(&mut asked, to.is_none(), &name, value)?;
            }
            seen.push(name);
        }
    }
    Ok(if to.is_none() { Wants::Batch(asked.limits) } else { Wants::Run(asked) })
}

fn option(asked: &mut Asked, is_batch: bool, name: &str, value: Option<String>) -> Result<(), String> {
    let max = match name {
        "--floats" if value.is_some() => return Err("'--floats' takes no value".to_string()),
        "--floats" => {
            asked.limits.floats = true;
            return Ok(());
        }
        "--window" | "--chunk" if is_batch => 1 << 40,
        "--depth" if !is_batch => 65_535,
        "--catalog" | "--scalar" | "--symbols" | "--value" if !is_batch => 1 << 30,
        _ => return Err(format!("unexpected argument '{name}'")),
    };
    let value = value.ok_or_else(|| format!("a value is required for '{name}'"))?;
    if name == "--catalog" {
        asked.catalog = Some(value);
        return Ok(());
    }
    let n = match value.parse::<u64>() {
        Ok(n) if n <= max => n,
        _ => return Err(format!("invalid value '{value}' for '{name}'")),
    };
    let limits = &mut asked.limits;
    match name {
        "--depth" => limits.depth = n as u32,
        "--scalar" => limits.scalar = n,
        "--symbols" => limits.symbols = n,
        "--value" => limits.value = n,
        "--window" => limits.window = n as usize,
        _ => limits.chunk = (n as usize).max(1),
    }
    Ok(())
}

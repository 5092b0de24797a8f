//! A transcoder of Ion 1.0 in plain Rust, written by hand for speed, to measure and to judge `ion` by. It shares nothing with `crates/`.

mod batch;
mod bin_in;
mod bin_out;
mod common;
mod float;
mod num;
mod run;
mod simd;
mod symbols;
mod text_in;
mod text_out;
mod words;

use common::*;
use run::*;
use std::fs::File;
use std::io::Write;
use std::mem::ManuallyDrop;
use std::os::fd::FromRawFd;
use symbols::Catalog;
use words::{Asked, Wants, USAGE};


fn fd(n: i32) -> ManuallyDrop<File> {
    // SAFETY: never closed
    ManuallyDrop::new(unsafe { File::from_raw_fd(n) })
}

fn say(s: &str) {
    let _ = fd(2).write_all(s.as_bytes());
}

fn cannot_open(name: &str) -> u8 {
    say(&format!("cannot open {name}\n"));
    3
}

fn fault(f: Fault, before: &str) -> u8 {
    match f {
        Fault::Refused(r, p) => {
            say(&format!("{before}refused {} at {}\n", r.name(), p));
            1
        }
        Fault::InputLimit => {
            say(&format!("{before}refused InputLimit at 281474976710656\n"));
            1
        }
        Fault::Read => {
            say("read fault\n");
            3
        }
        Fault::Write => {
            say("write fault\n");
            3
        }
    }
}

fn main() {
    std::process::exit(serve() as i32);
}

fn serve() -> u8 {
    match words::read(std::env::args_os().skip(1)) {
        Err(why) => {
            say(&format!("error: {why}\n\n{USAGE}"));
            2
        }
        Ok(Wants::Help) => {
            let _ = fd(1).write_all(USAGE.as_bytes());
            0
        }
        Ok(Wants::Batch(lim)) => match batch::batch(lim, &mut *fd(0), &mut *fd(1)) {
            Ok(()) => 0,
            Err(_) => 3,
        },
        Ok(Wants::Run(asked)) => one_run(&asked),
    }
}

fn one_run(asked: &Asked) -> u8 {
    let mut catalog = Catalog::default();
    if let Some(name) = &asked.catalog {
        let Ok(mut file) = File::open(name) else { return cannot_open(name) };
        match load_catalog(asked.limits, &mut file) {
            Ok(c) => catalog = c,
            Err(e) => return fault(e, "catalog "),
        }
    }
    let mut input = match &asked.file {
        None => fd(0),
        Some(name) => match File::open(name) {
            Ok(file) => ManuallyDrop::new(file),
            Err(_) => return cannot_open(name),
        },
    };
    let mut out = fd(1);
    match run(&catalog, asked.limits, asked.to, &mut *input, &mut *out) {
        Ok(s) if asked.to == To::Nothing => match out.write_all(format!("ok {} values\n", s.values).as_bytes()) {
            Ok(()) => 0,
            Err(_) => fault(Fault::Write, ""),
        },
        Ok(_) => 0,
        Err(e) => fault(e, ""),
    }
}

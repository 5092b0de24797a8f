//! One run, and the loading of a catalogue.

use crate::bin_in::BinReader;
use crate::bin_out::BinWriter;
use crate::common::*;
use crate::symbols::{Catalog, CatalogBuilder};
use crate::text_in::TextReader;
use crate::text_out::TextWriter;
use std::io::{Read, Write};

#[derive(Clone, Copy, PartialEq)]
pub enum To {
    Text,
    Pretty,
    Binary,
    Nothing,
    Other,
}

pub struct Summary {
    pub binary: bool,
    pub values: u64,
}

/// Joins what the run said with the last flush: a refusal is flushed, too.
fn end<T>(r: Res<T>, o: &mut Out) -> Res<T> {
    match r {
        Ok(_) | Err(Fault::Refused(..)) => {
            o.finish()?;
            r
        }
        _ => r,
    }
}

pub fn run(cat: &Catalog, lim: Limits, to: To, input: &mut dyn Read, output: &mut dyn Write) -> Res<Summary> {
    let mut w = Win::new(input, lim.window, lim.chunk);
    w.more(0)?;
    let binary = w.end > 0 && w.b(0) == 0xE0;
    let to = match to {
        To::Other if binary => To::Text,
        To::Other => To::Binary,
        t => t,
    };
    let values = if binary {
        let mut r = BinReader::new(w, lim, cat);
        match to {
            To::Binary => return refuse(Reason::SameForm, 0),
            To::Text => {
                let mut h = TextWriter::<false>::new(Out::new(output, lim.window));
                let e = r.run(&mut h, false);
                end(e, &mut h.o)?;
            }
            To::Pretty => {
                let mut h = TextWriter::<true>::new(Out::new(output, lim.window));
                let e = r.run(&mut h, false);
                end(e, &mut h.o)?;
            }
            _ => r.run(&mut Nothing, false)?,
        }
        r.values
    } else {
        let mut r = TextReader::new(w, lim, cat);
        match to {
            To::Text => {
                let mut h = TextWriter::<false>::new(Out::new(output, lim.window));
                let e = r.run(&mut h, false);
                end(e, &mut h.o)?;
            }
            To::Pretty => {
                let mut h = TextWriter::<true>::new(Out::new(output, lim.window));
                let e = r.run(&mut h, false);
                end(e, &mut h.o)?;
            }
            To::Binary => {
                let mut h = BinWriter::new(Out::new(output, lim.window), lim)?;
                let e = r.run(&mut h, false);
                end(e, &mut h.o)?;
            }
            _ => r.run(&mut Nothing, false)?,
        }
        r.values
    };
    Ok(Summary { binary, values })
}

pub fn load_catalog(lim: Limits, input: &mut dyn Read) -> Res<Catalog> {
    let empty = Catalog::default();
    // catalogues have no floats
    let lim = Limits { floats: false, ..lim };
    let mut w = Win::new(input, lim.window, lim.chunk);
    w.more(0)?;
    let mut b = CatalogBuilder::new(lim.symbols);
    if w.end > 0 && w.b(0) == 0xE0 {
        BinReader::new(w, lim, &empty).run(&mut b, false)?;
    } else {
        TextReader::new(w, lim, &empty).run(&mut b, false)?;
    }
    Ok(b.catalog)
}

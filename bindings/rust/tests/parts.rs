//! Streams in parts: their outputs, checkpoints, readers and writers that fail, and refusals.
use cozgelt::{check, convert, to_binary, to_text, to_text_with};
use cozgelt::{Catalog, Error, Limits, Parts, PartsError, Profile, Reason, To};
use std::cell::Cell;
use std::io::{self, Read, Write};
use std::os::unix::net::UnixStream;
use std::sync::mpsc::channel;
use std::time::Duration;

/// Gives so many bytes at a time, and before each time says that it was interrupted.
struct Few<'a> {
    rest: &'a [u8],
    most: usize,
    interrupted: bool,
}

fn few(rest: &[u8], most: usize) -> Few<'_> {
    Few {
        rest,
        most,
        interrupted: false,
    }
}

impl Read for Few<'_> {
    fn read(&mut self, into: &mut [u8]) -> io::Result<usize> {
        self.interrupted = !self.interrupted;
        if self.interrupted {
            return Err(io::ErrorKind::Interrupted.into());
        }
        let most = self.most.min(into.len());
        self.rest.read(&mut into[..most])
    }
}

/// Gives these answers in turn, of which none is a failure, and then nothing.
struct Says(Vec<Option<&'static [u8]>>);

impl Read for Says {
    fn read(&mut self, into: &mut [u8]) -> io::Result<usize> {
        if self.0.is_empty() {
            return Ok(0);
        }
        match self.0.remove(0) {
            None => Err(io::Error::new(io::ErrorKind::Other, "gone")),
            Some(bytes) => {
                into[..bytes.len()].copy_from_slice(bytes);
                Ok(bytes.len())
            }
        }
    }
}

fn stream() -> Vec<u8> {
    let mut text = Vec::new();
    for i in 0..2000 {
        text.extend(format!("{{id: {i}, name: \"n {}\"}}\n", i * i).bytes());
    }
    text.extend(
        b"$ion_1_0\n$ion_symbol_table::{symbols:[\"p\"]}\n[$10]\n[1,\n2]\n'''a\n''' '''b'''",
    );
    text
}

fn refusal(answer: Result<u64, PartsError>) -> (Reason, u64) {
    match answer {
        Err(PartsError::Call(Error::Refused(refusal))) => (refusal.reason, refusal.place),
        other => panic!("{other:?}"),
    }
}

#[test]
fn parts_are_the_whole() {
    let limits = Limits::default();
    let text = stream();
    let binary = to_binary(&text, &[], &limits).unwrap();
    let shown = to_text(&text, &[], &limits).unwrap();
    let count = check(&text, &[], &limits).unwrap();
    for given in [&text, &binary] {
        for most in [1000, 70_000, 1 << 20] {
            let mut out = Vec::new();
            let values = convert(few(given, most), &mut out, To::Text, &limits).unwrap();
            assert!(values == count && out == shown, "{most}");
            out.clear();
            convert(few(given, most), &mut out, To::Rewritten, &limits).unwrap();
            assert!(to_text(&out, &[], &limits).unwrap() == shown, "{most}");
            let values = convert(few(given, most), io::sink(), To::Nothing, &limits).unwrap();
            assert_eq!(values, count);
        }
    }
}

#[test]
fn checkpoints() {
    let (text, limits) = (stream(), Limits::default());
    let binary = to_binary(&text, &[], &limits).unwrap();
    for given in [&text, &binary] {
        let (mut outputs, mut stands) = (Vec::new(), Vec::new());
        let mut parts = Parts::new(few(given, 5000), To::Text, &limits).unwrap();
        while let Some(output) = parts.next() {
            outputs.push(output.unwrap());
            stands.push((parts.place(), parts.values(), parts.kept().to_vec()));
        }
        assert_eq!(parts.place(), given.len() as u64);
        assert!(stands.len() > 5);
        for (i, (place, values, kept)) in stands.iter().enumerate() {
            let rest = few(&given[*place as usize..], 77_777);
            let mut rest = Parts::new(rest, To::Text, &limits)
                .unwrap()
                .at(kept, *place);
            let out: Vec<_> = rest.by_ref().map(Result::unwrap).collect();
            assert!(out.concat() == outputs[i + 1..].concat());
            assert_eq!(
                (rest.place(), values + rest.values()),
                (parts.place(), parts.values())
            );
        }
    }
}

#[test]
fn floats_and_catalogues() {
    let limits = Limits::default();
    let table = b"$ion_shared_symbol_table::{name:\"x\",version:1,symbols:[\"p\"]}";
    let stream = b"$ion_symbol_table::{imports:[{name:\"x\",version:1,max_id:1}]}\n[$10]\n[4e0]";
    let catalog = Catalog::load(table, &limits).unwrap();
    let parts = Parts::new(few(stream, 7), To::Text, &limits)
        .unwrap()
        .profile(Profile::Floats);
    let mut out = Vec::new();
    let parts = parts.catalog(&catalog).unwrap();
    assert_eq!(parts.write_to(&mut out).unwrap(), 2);
    assert_eq!(
        out,
        to_text_with(Profile::Floats, stream, table, &limits).unwrap()
    );
    let answer = convert(&stream[..], io::sink(), To::Text, &limits);
    assert_eq!(refusal(answer).0, Reason::UnknownSymbol);
}

#[test]
fn what_stands_before_a_fault_is_written() {
    let limits = Limits::default();
    let mut out = Vec::new();
    let reader = Says(vec![Some(b"1\n"), Some(b"[2, 4"), Some(b"e0]\n5")]);
    match convert(reader, &mut out, To::Text, &limits) {
        Err(PartsError::Call(Error::Refused(refusal))) => {
            assert_eq!((refusal.reason, refusal.place), (Reason::Float, 6));
            assert!(refusal.output.is_empty());
        }
        other => panic!("{other:?}"),
    }
    assert_eq!(out, b"1\n[2");
    let reader = Says(vec![Some(b"1\n"), Some(b"[2, 4"), Some(b"e0]\n5")]);
    let mut parts = Parts::new(reader, To::Text, &limits).unwrap();
    assert_eq!(parts.next().unwrap().unwrap(), b"1\n");
    let why = parts.next().unwrap().unwrap_err();
    assert_eq!(why.to_string(), "refused Float at 6");
    match why {
        PartsError::Call(Error::Refused(refusal)) => assert_eq!(refusal.output, b"[2"),
        other => panic!("{other:?}"),
    }
    assert!(parts.next().is_none());
    let binary = to_binary(b"1", &[], &limits).unwrap();
    let answer = convert(&binary[..], io::sink(), To::Binary, &limits);
    assert_eq!(refusal(answer), (Reason::SameForm, 0));
}

#[test]
fn readers_and_writers_that_fail() {
    let limits = Limits::default();
    let reader = Says(vec![Some(b"1\n2\n["), None, Some(b"3]\n")]);
    let mut parts = Parts::new(reader, To::Text, &limits).unwrap();
    assert_eq!(parts.next().unwrap().unwrap(), b"1\n2\n");
    assert!(matches!(parts.next(), Some(Err(PartsError::Io(_)))));
    let rest: Vec<_> = parts.map(Result::unwrap).collect();
    assert_eq!(rest.concat(), b"[3]\n");

    struct Broken;
    impl Write for Broken {
        fn write(&mut self, _: &[u8]) -> io::Result<usize> {
            Err(io::ErrorKind::BrokenPipe.into())
        }
        fn flush(&mut self) -> io::Result<()> {
            Ok(())
        }
    }
    for stream in [&b"1\n"[..], b"4e0", b"[2, 4e0]"] {
        let answer = convert(stream, Broken, To::Text, &limits);
        let fails = stream != b"4e0";
        assert_eq!(matches!(answer, Err(PartsError::Io(_))), fails);
    }
}

#[test]
fn a_live_stream_hands_out_what_it_has() {
    let limits = Limits::default();
    let text = [b"[".as_slice(), &b"1,".repeat(749), b"]\n"].concat();
    let long = [b"{a:\"".as_slice(), &b"b".repeat(50_000), b"\"}\n"].concat();
    let binary = to_binary(&text, &[], &limits).unwrap();
    for stream in [text, long, binary] {
        let (reader, mut writer) = UnixStream::pair().unwrap();
        let (tell, told) = channel();
        let shown = to_text(&stream, &[], &limits).unwrap();
        let thread = std::thread::spawn(move || {
            let mut parts = Parts::new(reader, To::Text, &Limits::default()).unwrap();
            let output = parts.find(|it| !it.as_ref().unwrap().is_empty());
            tell.send(output.unwrap().unwrap()).unwrap();
        });
        let cut = stream.len() * 2 / 3;
        for piece in [
            &stream[..cut],
            &stream[cut..stream.len() - 1],
            &stream[stream.len() - 1..],
        ] {
            writer.write_all(piece).unwrap();
            std::thread::sleep(Duration::from_millis(20));
        }
        let got = told.recv_timeout(Duration::from_secs(20));
        drop(writer);
        thread.join().unwrap();
        assert!(got.unwrap() == shown, "{} bytes", stream.len());
    }
}

/// Counts what it gives.
struct Counted<'a>(Few<'a>, &'a Cell<u64>);

impl Read for Counted<'_> {
    fn read(&mut self, into: &mut [u8]) -> io::Result<usize> {
        let read = self.0.read(into)?;
        self.1.set(self.1.get() + read as u64);
        Ok(read)
    }
}

#[test]
fn few_bytes_wait_when_an_output_comes() {
    let value = [b"[".as_slice(), &b"1,".repeat(499), b"]\n"].concat();
    let text = value.repeat(1000);
    let given = Cell::new(0);
    let reader = Counted(few(&text, 300), &given);
    let mut parts = Parts::new(reader, To::Text, &Limits::default()).unwrap();
    while let Some(output) = parts.next() {
        output.unwrap();
        assert!(given.get() - parts.place() < 1300, "{parts:?}");
    }
    assert_eq!(parts.values(), 1000);
}

#[test]
fn how_many_bytes_may_wait() {
    let limits = Limits::default().depth(65_535).scalar(1000);
    let long = [b"1\n[".as_slice(), &b"1,".repeat(1_000_000)].concat();
    let parts = Parts::new(&long[..], To::Text, &limits)
        .unwrap()
        .hold(1 << 20);
    let answer = parts.write_to(io::sink());
    assert!(matches!(answer, Err(PartsError::Call(Error::InputLimit))));
    let faulty = [b"1\n[}".as_slice(), &b"\n".repeat(2_000_000)].concat();
    let mut reader = &faulty[..];
    let parts = Parts::new(&mut reader, To::Text, &limits)
        .unwrap()
        .hold(1 << 20);
    let mut out = Vec::new();
    assert_eq!(refusal(parts.write_to(&mut out)), (Reason::BadToken, 3));
    assert!(out.starts_with(b"1\n") && !reader.is_empty());
    let tables = b"$ion_symbol_table::{symbols:[\"p\"]}\n[$10]\n".repeat(100);
    for (most, fails) in [(1000, true), (100_000, false)] {
        let parts = Parts::new(&tables[..], To::Text, &limits).unwrap();
        let answer = parts.hold(most).write_to(io::sink());
        let is_limit = matches!(answer, Err(PartsError::Call(Error::InputLimit)));
        assert_eq!(is_limit, fails);
    }
    let parts = Parts::new(&b"1\n2\n"[..], To::Text, &limits.input(3)).unwrap();
    let answer = parts.write_to(io::sink());
    assert!(matches!(answer, Err(PartsError::Call(Error::InputLimit))));
    let parts = Parts::new(&b"1"[..], To::Text, &limits.depth(65_536)).unwrap();
    let answer = parts.write_to(io::sink());
    assert!(matches!(answer, Err(PartsError::Call(Error::Invalid))));
}

#[test]
fn parts_go_to_other_threads() {
    fn crosses<T: Send>(it: T) -> T {
        it
    }
    let parts = Parts::new(&b"1 2"[..], To::Text, &Limits::default()).unwrap();
    let parts = crosses(parts);
    let values = std::thread::spawn(move || parts.write_to(io::sink()).unwrap());
    assert_eq!(values.join().unwrap(), 2);
}

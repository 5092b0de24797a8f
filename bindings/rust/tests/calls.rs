//! One call of each kind, refusals, wrong calls, four threads at once, and eight over one catalogue.
use cozgelt::{check, check_with, to_binary, to_binary_with, to_text, to_text_with, version};
use cozgelt::{rewrite, rewrite_with, to_pretty, to_pretty_with};
use cozgelt::{Catalog, Error, Limits, Profile, Reason};

const TABLES: &[u8] = b"$ion_shared_symbol_table::{name:\"x\",version:1,symbols:[\"p\",\"q\"]}";

const IMPORT: &[u8] = b"$ion_symbol_table::{imports:[{name:\"x\",version:1,max_id:2}]} $10 $11";

fn refused(answer: Result<Vec<u8>, Error>) -> (Reason, u64, Vec<u8>) {
    match answer {
        Err(Error::Refused(refusal)) => (refusal.reason, refusal.place, refusal.output),
        other => panic!("{other:?}"),
    }
}

#[test]
fn there_and_back() {
    let limits = Limits::default();
    let binary = to_binary(b"a::{b: [1.50, \"x\"]}", &[], &limits).unwrap();
    assert_eq!(binary[..4], [0xE0, 1, 0, 0xEA]);
    assert_eq!(
        to_text(&binary, &[], &limits).unwrap(),
        b"a::{b:[1.50,\"x\"]}\n"
    );
    assert_eq!(check(&binary, &[], &limits), Ok(1));
    assert_eq!(to_text(b"", &[], &limits), Ok(Vec::new()));
    assert_eq!(version(), (0, 2, 0));
}

#[test]
fn pretty_text_has_a_line_for_each_member() {
    let limits = Limits::default();
    let stream = b"a::{b: [1.50, (x 'y z')], c: {}}[]\"a b\"";
    let pretty =
        b"a::{\n  b: [\n    1.50,\n    (\n      x\n      'y z'\n    )\n  ],\n  c: {}\n}\n[]\n\"a b\"\n";
    assert_eq!(to_pretty(stream, &[], &limits).unwrap(), pretty);
    let binary = to_binary(stream, &[], &limits).unwrap();
    assert_eq!(to_pretty(&binary, &[], &limits).unwrap(), pretty);
    assert_eq!(to_pretty(pretty, &[], &limits).unwrap(), pretty);
    assert_eq!(
        to_text(pretty, &[], &limits).unwrap(),
        to_text(stream, &[], &limits).unwrap()
    );
    assert_eq!(
        refused(to_pretty(b"1 [2, 3] {a: 4e0", &[], &limits)),
        (Reason::Float, 13, b"1\n[\n  2,\n  3\n]\n{".to_vec())
    );
    assert_eq!(
        to_pretty_with(Profile::Floats, b"[4e0]", &[], &limits).unwrap(),
        b"[\n  4e0\n]\n"
    );
}

#[test]
fn binary_is_written_again() {
    let limits = Limits::default();
    let stream = b"\xE0\x01\x00\xEA\x01\xFF\x22\x00\x05\xD1\x82\x84\x11";
    let binary = b"\xE0\x01\x00\xEA\x21\x05\xD2\x84\x11";
    for given in [&stream[..], binary, b"5 {name:true}"] {
        assert_eq!(rewrite(given, &[], &limits).unwrap(), binary);
    }
    assert_eq!(
        refused(to_binary(stream, &[], &limits)),
        (Reason::SameForm, 0, vec![])
    );
    let floats = to_binary_with(Profile::Floats, b"[4e0]", &[], &limits).unwrap();
    assert_eq!(
        rewrite_with(Profile::Floats, &floats, &[], &limits).unwrap(),
        floats
    );
    assert_eq!(
        refused(rewrite(&floats, &[], &limits)),
        (Reason::Float, 5, floats[..4].to_vec())
    );
}

#[test]
fn refusals_have_a_place_and_what_stands_before() {
    let limits = Limits::default();
    assert_eq!(
        refused(to_text(b"1 [2, 3] 4e0", &[], &limits)),
        (Reason::Float, 9, b"1\n[2,3]\n".to_vec())
    );
    assert_eq!(
        refused(to_binary(b"\xE0\x01\x00\xEA", &[], &limits)),
        (Reason::SameForm, 0, Vec::new())
    );
    let why = check(b"[[1]]", &[], &limits.depth(1)).unwrap_err();
    assert_eq!(why.to_string(), "refused DepthLimit at 1");
}

#[test]
fn imports_are_found_in_the_catalogue() {
    assert_eq!(
        to_text(IMPORT, TABLES, &Limits::default()).unwrap(),
        b"p\nq\n"
    );
    assert_eq!(
        check(IMPORT, b"1", &Limits::default()),
        Err(Error::CatalogRefused(Reason::CatalogEntry, 0))
    );
}

#[test]
fn a_catalogue_is_loaded_once() {
    let (by, limits) = (Profile::Strict, Limits::default());
    let catalog = Catalog::load(TABLES, &limits).unwrap();
    assert_eq!(catalog.to_text(by, IMPORT, &limits).unwrap(), b"p\nq\n");
    assert_eq!(catalog.to_pretty(by, IMPORT, &limits).unwrap(), b"p\nq\n");
    assert_eq!(catalog.check(by, IMPORT, &limits), Ok(2));
    let binary = to_binary(IMPORT, TABLES, &limits).unwrap();
    assert_eq!(catalog.to_binary(by, IMPORT, &limits).unwrap(), binary);
    assert_eq!(catalog.rewrite(by, &binary, &limits).unwrap(), binary);
    let floats = [IMPORT, b" [4e0]"].concat();
    let at = IMPORT.len() as u64 + 2;
    assert_eq!(
        refused(catalog.to_text(by, &floats, &limits)),
        (Reason::Float, at, b"p\nq\n[".to_vec())
    );
    assert_eq!(
        catalog.to_text(Profile::Floats, &floats, &limits).unwrap(),
        b"p\nq\n[4e0]\n"
    );
    assert_eq!(
        catalog.check(by, IMPORT, &limits.depth(65_536)),
        Err(Error::Invalid)
    );
    assert_eq!(
        catalog.check(by, IMPORT, &limits.input(2)),
        Err(Error::InputLimit)
    );
    assert_eq!(
        Catalog::load(&[], &limits)
            .unwrap()
            .check(by, b"1", &limits),
        Ok(1)
    );
}

#[test]
fn catalogues_that_are_not_loaded() {
    let limits = Limits::default();
    let failure = |tables: &[u8], limits: &Limits| Catalog::load(tables, limits).unwrap_err();
    assert_eq!(
        failure(&[TABLES, b" 5"].concat(), &limits),
        Error::CatalogRefused(Reason::CatalogEntry, TABLES.len() as u64 + 1)
    );
    assert_eq!(
        failure(TABLES, &limits.symbols((1 << 30) + 1)),
        Error::Invalid
    );
    assert_eq!(failure(TABLES, &limits.input(2)), Error::InputLimit);
}

#[test]
fn eight_threads_over_one_catalogue() {
    fn crosses<T: Send + Sync>(_: &T) {}
    let limits = Limits::default();
    let catalog = Catalog::load(TABLES, &limits).unwrap();
    crosses(&catalog);
    std::thread::scope(|scope| {
        for _ in 0..8 {
            scope.spawn(|| {
                for _ in 0..1000 {
                    let text = catalog.to_text(Profile::Strict, IMPORT, &limits).unwrap();
                    assert_eq!(text, b"p\nq\n");
                }
            });
        }
    });
    let last = std::thread::spawn(move || catalog.check(Profile::Strict, IMPORT, &limits));
    assert_eq!(last.join().unwrap(), Ok(2));
}

#[test]
fn floats_are_read_by_their_profile() {
    let (by, limits) = (Profile::Floats, Limits::default());
    let stream = b"[1.50e0, -0e0, nan] 602214076e15";
    let shown = b"[1.5e0,-0e0,nan]\n6.02214076e23\n";
    let binary = to_binary_with(by, stream, &[], &limits).unwrap();
    assert_eq!(
        binary,
        b"\xE0\x01\0\xEA\xBE\x8F\x44\x3F\xC0\0\0\x44\x80\0\0\0\x44\x7F\xC0\0\0\x48\x44\xDF\xE1\x85\xCA\x57\xC5\x17"
    );
    assert_eq!(to_text_with(by, stream, &[], &limits).unwrap(), shown);
    assert_eq!(to_text_with(by, &binary, &[], &limits).unwrap(), shown);
    assert_eq!(check_with(by, &binary, &[], &limits), Ok(2));
    assert_eq!(
        refused(to_text_with(by, b"1e400", &[], &limits)),
        (Reason::Range, 0, Vec::new())
    );
}

#[test]
fn floats_are_refused_by_the_strict_profile() {
    let (by, limits) = (Profile::Strict, Limits::default());
    assert_eq!(by, Profile::default());
    assert_eq!(
        refused(to_text_with(by, b"1 4e0", &[], &limits)),
        (Reason::Float, 2, b"1\n".to_vec())
    );
    assert_eq!(
        refused(to_binary_with(by, b"4e0", &[], &limits)),
        (Reason::Float, 0, b"\xE0\x01\0\xEA".to_vec())
    );
    let why = check_with(by, b"null.float nan", &[], &limits).unwrap_err();
    assert_eq!(why.to_string(), "refused Float at 11");
    let table = b"$ion_shared_symbol_table::{name:\"x\",version:1,symbols:[\"p\"],more:1e0}";
    assert_eq!(
        check_with(Profile::Floats, b"1", table, &limits),
        Err(Error::CatalogRefused(Reason::Float, 65))
    );
}

#[test]
fn an_output_longer_than_guessed() {
    let symbol = [
        b"$ion_symbol_table::{symbols:[\"".as_slice(),
        &[b'a'; 1000],
        b"\"]}",
        &b" $10".repeat(1000),
    ]
    .concat();
    assert_eq!(
        to_text(&symbol, &[], &Limits::default()).unwrap().len(),
        1_001_000
    );
}

#[test]
fn each_limit_is_changed_alone() {
    let limits = Limits::default();
    let all = limits.depth(1).scalar(2).symbols(3).value(4).input(5);
    assert_eq!(
        (all.depth, all.scalar, all.symbols, all.value, all.input),
        (1, 2, 3, 4, 5)
    );
    assert_eq!(
        limits.depth(1).depth(limits.depth),
        limits.value(2).value(limits.value)
    );
}

#[test]
fn wrong_calls() {
    let limits = Limits::default();
    assert_eq!(check(b"1", &[], &limits.depth(65_536)), Err(Error::Invalid));
    for many in [
        limits.scalar((1 << 30) + 1),
        limits.symbols((1 << 30) + 1),
        limits.value((1 << 30) + 1),
        limits.input((1 << 48) + 1),
    ] {
        assert_eq!(check(b"1", &[], &many), Err(Error::Invalid));
    }
    assert_eq!(check(b"1 2", &[], &limits.input(2)), Err(Error::InputLimit));
}

#[test]
fn four_threads_at_once() {
    let stream = b"{name: abc, list: [1, 2.50, 2026-11-26T]} ".repeat(500);
    let binary = to_binary(&stream, &[], &Limits::default()).unwrap();
    let text = to_text(&stream, &[], &Limits::default()).unwrap();
    std::thread::scope(|scope| {
        for _ in 0..4 {
            scope.spawn(|| {
                for _ in 0..50 {
                    assert_eq!(to_binary(&stream, &[], &Limits::default()).unwrap(), binary);
                    assert_eq!(to_text(&binary, &[], &Limits::default()).unwrap(), text);
                }
            });
        }
    });
}

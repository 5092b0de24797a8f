//! usage: calls CALL FILE ROUNDS: processor time of one call of the library, in seconds, the best of nine batches of so many.
use cozgelt::{check, to_binary, to_text, Limits};

extern "C" {
    fn clock() -> std::ffi::c_long;
}

fn main() {
    let words: Vec<String> = std::env::args().collect();
    let stream = std::fs::read(&words[2]).unwrap();
    let rounds: u32 = words[3].parse().unwrap();
    let limits = Limits::default();
    let mut best = f64::MAX;
    for _ in 0..9 {
        // SAFETY: it takes nothing, and answers a number.
        let start = unsafe { clock() };
        for _ in 0..rounds {
            match words[1].as_str() {
                "check" => drop(check(&stream, &[], &limits).unwrap()),
                "to_text" => drop(to_text(&stream, &[], &limits).unwrap()),
                _ => drop(to_binary(&stream, &[], &limits).unwrap()),
            }
        }
        // SAFETY: as above.
        let each = (unsafe { clock() } - start) as f64 / 1e6 / f64::from(rounds);
        best = best.min(each);
    }
    println!("{best:.9}");
}

//! What `beside` and `decodes` are asked: how many rounds, and of which grids.

use std::process::exit;

/// The program's words; a wrong call ends it.
pub fn asked(program: &str) -> (usize, Vec<String>) {
    let mut words = std::env::args().skip(1);
    let Some(rounds) = words.next().and_then(|word| word.parse().ok()) else {
        eprintln!("usage: {program} ROUNDS GRID...");
        exit(2)
    };
    (rounds, words.collect())
}

//! Compares the static library of the proved store with this implementation.
//! The last line says how many cases passed.

use std::env;
use std::process::ExitCode;

use gaffdamson_reference::library::{compare, PROVED};

const USAGE: &str = "usage: compare-library CALLS BUFFERS SEED (CALLS and BUFFERS at least 1)";

fn main() -> ExitCode {
    let words: Vec<String> = env::args().skip(1).collect();
    let Some((calls, buffers, seed)) = read_words(&words) else {
        eprintln!("{USAGE}");
        return ExitCode::from(2);
    };
    let found = compare(&PROVED, calls, buffers, seed);
    println!("{found}");
    if found.failed == 0 {
        ExitCode::SUCCESS
    } else {
        ExitCode::FAILURE
    }
}

fn read_words(words: &[String]) -> Option<(usize, usize, u64)> {
    let [calls, buffers, seed] = words else {
        return None;
    };
    let calls = calls.parse().ok().filter(|&calls| calls > 0)?;
    let buffers = buffers.parse().ok().filter(|&buffers| buffers > 0)?;
    Some((calls, buffers, seed.parse().ok()?))
}

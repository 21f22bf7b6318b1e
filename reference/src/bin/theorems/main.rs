//! Writes theorems, to be proved by computation, that the definitions of the
//! model give the same answers, states and stores as this implementation:
//! `theorems COUNT SEED DEFINITIONS PROOFS` reads the folder DEFINITIONS and
//! writes COUNT lists of calls and COUNT buffers into the folder PROOFS, and
//! the lengths at which something changes.

mod antt;

use std::collections::BTreeSet;
use std::env;
use std::fs;
use std::io;
use std::path::Path;
use std::process::ExitCode;

use antt::Definitions;
use gaffdamson_reference::buffer;
use gaffdamson_reference::machine::Answer;
use gaffdamson_reference::random::{buffers, lists, Draws};

/// How many lists or buffers stand in one file.
const IN_A_FILE: usize = 20;

/// Lengths of buffers around those where a store can begin, has one record
/// more, or cannot be any longer.
const LENGTHS: [usize; 13] = [
    0, 4, 9, 10, 15, 16, 22, 12_285, 12_286, 12_291, 12_292, 12_297, 12_298,
];

/// What has been drawn.
#[derive(Default)]
struct Tally {
    calls: usize,
    answered: BTreeSet<u32>,
    refusals: BTreeSet<u32>,
    stores: usize,
}

fn main() -> ExitCode {
    let words: Vec<String> = env::args().skip(1).collect();
    let [count, seed, definitions, proofs] = &words[..] else {
        eprintln!("usage: theorems COUNT SEED DEFINITIONS PROOFS");
        return ExitCode::from(2);
    };
    let (Ok(count), Ok(seed)) = (count.parse(), seed.parse()) else {
        eprintln!("COUNT and SEED are numbers");
        return ExitCode::from(2);
    };
    match write_all(count, seed, Path::new(definitions), Path::new(proofs)) {
        Ok(tally) => {
            report(count, &tally);
            ExitCode::SUCCESS
        }
        Err(error) => {
            eprintln!("{error}");
            ExitCode::FAILURE
        }
    }
}

fn write_all(count: usize, seed: u64, definitions: &Path, proofs: &Path) -> io::Result<Tally> {
    let definitions = Definitions::read(definitions)?;
    let mut tally = Tally::default();
    let lists = (1..=count).map(|place| list_theorems(&definitions, seed, place, &mut tally));
    let lists: Vec<String> = lists.collect();
    let buffers = (1..=count).map(|place| buffer_theorems(&definitions, seed, place, &mut tally));
    let buffers: Vec<String> = buffers.collect();
    let lengths = LENGTHS.map(|length| definitions.of_length(length)).to_vec();
    let mut modules = String::new();
    for (kind, theorems) in [("Lists", lists), ("Buffers", buffers), ("Lengths", lengths)] {
        for (file, part) in (1..).zip(theorems.chunks(IN_A_FILE)) {
            let text = definitions.opening() + &part.concat();
            fs::write(proofs.join(format!("{kind}{file}.antt")), text)?;
            modules += &format!("pub mod {kind}{file}\n");
        }
    }
    fs::write(proofs.join("Lib.antt"), modules)?;
    Ok(tally)
}

fn list_theorems(definitions: &Definitions, seed: u64, place: usize, tally: &mut Tally) -> String {
    let run = lists::draw(&mut Draws::new(seed, 1, place as u64));
    tally.calls += run.calls.len();
    for (call, answer) in run.calls.iter().zip(&run.answers) {
        match answer {
            Answer::Refusal(number) => tally.refusals.insert(*number),
            _ => tally.answered.insert(call.operator),
        };
    }
    definitions.of_list(place, &run)
}

fn buffer_theorems(
    definitions: &Definitions,
    seed: u64,
    place: usize,
    tally: &mut Tally,
) -> String {
    let words = buffers::draw(&mut Draws::new(seed, 2, place as u64));
    tally.stores += usize::from(buffer::is_store(&words));
    definitions.of_buffer(place, &words)
}

fn report(count: usize, tally: &Tally) {
    let refusals: Vec<String> = tally.refusals.iter().map(u32::to_string).collect();
    println!(
        "{count} lists with {} calls, {} operators answered, refusals {}; {count} buffers, {} of them stores; {} lengths",
        tally.calls,
        tally.answered.len(),
        refusals.join(" "),
        tally.stores,
        LENGTHS.len()
    );
}

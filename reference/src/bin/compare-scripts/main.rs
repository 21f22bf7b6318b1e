//! Runs a program on scripts and compares what it prints with what `slips`
//! must print. The last line says how many passed.

use std::env;
use std::fs;
use std::io;
use std::path::{Path, PathBuf};
use std::process::ExitCode;
use std::sync::atomic::{AtomicUsize, Ordering};
use std::thread;

use gaffdamson_reference::compare::{self, tally::Tally, Expected};
use gaffdamson_reference::random::scripts;
use gaffdamson_reference::script;

const USAGE: &str = "\
usage: compare-scripts PROGRAM KEPT random COUNT SEED
       compare-scripts PROGRAM KEPT files SCRIPT..
  compares COUNT random scripts, or those of some files;
  those that differ are written into the folder KEPT";

/// So many scripts that differ are described; all are kept.
const MOST_DESCRIBED: usize = 20;

/// The scripts of a comparison.
enum Scripts {
    Random { count: usize, seed: u64 },
    Files(Vec<PathBuf>),
}

impl Scripts {
    fn count(&self) -> usize {
        match self {
            Scripts::Random { count, .. } => *count,
            Scripts::Files(files) => files.len(),
        }
    }

    /// The script in a place, from 0.
    fn get(&self, place: usize) -> io::Result<Vec<u8>> {
        match self {
            Scripts::Random { seed, .. } => Ok(scripts::nth(*seed, place as u64 + 1)),
            Scripts::Files(files) => fs::read(&files[place]),
        }
    }

    fn name(&self, place: usize) -> String {
        match self {
            Scripts::Random { seed, .. } => format!("script {} of seed {seed}", place + 1),
            Scripts::Files(files) => files[place].display().to_string(),
        }
    }
}

/// A script that differs: its place, and how.
type Failure = (usize, String);

fn main() -> ExitCode {
    let words: Vec<String> = env::args().skip(1).collect();
    let Some((program, kept, scripts)) = read_words(&words) else {
        eprintln!("{USAGE}");
        return ExitCode::from(2);
    };
    match compare_all(program, &scripts).and_then(|found| report(&scripts, kept, found)) {
        Ok(true) => ExitCode::SUCCESS,
        Ok(false) => ExitCode::FAILURE,
        Err(error) => {
            println!("no comparison: {}: {error}", program.display());
            ExitCode::from(2)
        }
    }
}

fn read_words(words: &[String]) -> Option<(&Path, &Path, Scripts)> {
    let (program, kept, mode, rest) = match words {
        [program, kept, mode, rest @ ..] => (program, kept, mode, rest),
        _ => return None,
    };
    let scripts = match (mode.as_str(), rest) {
        ("random", [count, seed]) => Scripts::Random {
            count: count.parse().ok()?,
            seed: seed.parse().ok()?,
        },
        ("files", files) => Scripts::Files(files.iter().map(PathBuf::from).collect()),
        _ => return None,
    };
    (scripts.count() > 0).then(|| (Path::new(program), Path::new(kept), scripts))
}

/// Compares the scripts, several at a time.
fn compare_all(program: &Path, scripts: &Scripts) -> io::Result<(Tally, Vec<Failure>)> {
    let workers = thread::available_parallelism().map_or(1, usize::from);
    let next = AtomicUsize::new(0);
    let parts: Vec<_> = thread::scope(|scope| {
        let workers: Vec<_> = (0..workers)
            .map(|_| scope.spawn(|| compare_some(program, scripts, &next)))
            .collect();
        let joined = workers.into_iter().map(|worker| worker.join());
        joined.map(|part| part.expect("no panic")).collect()
    });
    let mut tally = Tally::default();
    let mut failures = Vec::new();
    for part in parts {
        let (its_tally, its_failures) = part?;
        tally.merge(its_tally);
        failures.extend(its_failures);
    }
    failures.sort();
    Ok((tally, failures))
}

/// Compares the script in the next place, until there is none.
fn compare_some(
    program: &Path,
    scripts: &Scripts,
    next: &AtomicUsize,
) -> io::Result<(Tally, Vec<Failure>)> {
    let mut tally = Tally::default();
    let mut failures = Vec::new();
    loop {
        let place = next.fetch_add(1, Ordering::Relaxed);
        if place >= scripts.count() {
            return Ok((tally, failures));
        }
        let input = scripts.get(place)?;
        let expected = Expected::of(&input);
        tally.add(&input, &expected.output);
        let run = compare::run(program, &input)?;
        if let Some(problem) = compare::difference(&input, &expected, &run) {
            failures.push((place, problem));
        }
    }
}

/// Prints what was found and keeps the scripts that differ. Says whether there
/// are none.
fn report(scripts: &Scripts, kept: &Path, found: (Tally, Vec<Failure>)) -> io::Result<bool> {
    let (tally, failures) = found;
    print!("{tally}");
    for (number, (place, problem)) in failures.iter().enumerate() {
        let file = kept.join(format!("{}.script", place + 1));
        let input = scripts.get(*place)?;
        fs::write(&file, &input)?;
        if number < MOST_DESCRIBED {
            println!("{}, in {}: {problem}", scripts.name(*place), file.display());
            print_short(&input);
        }
    }
    let failed = failures.len();
    println!("{} passed, {failed} failed", scripts.count() - failed);
    Ok(failed == 0)
}

/// Prints a script of a few lines.
fn print_short(input: &[u8]) {
    let lines = script::lines(input);
    if lines.len() <= 30 && input.len() <= 3_000 {
        for line in lines {
            println!("    {}", line.escape_ascii());
        }
    }
}

//! Measures `slips` and the second implementation's program on whole scripts.
//! Each run is a process of its own that reads a file and writes to
//! `/dev/null`; the two take turns, and the least time of each counts. Before
//! that, their outputs are compared. Prints a table; fails where they differ.

use std::env;
use std::fs::{self, File};
use std::io::{self, Read};
use std::path::{Path, PathBuf};
use std::process::{Command, ExitCode, Stdio};
use std::time::{Duration, Instant};

use gaffdamson_reference::inputs::long;
use gaffdamson_reference::script::MOST_BYTES;

const USAGE: &str = "usage: bench-scripts [--repetitions R] [--slips PROGRAM]";

/// How often the longest script is run, if nothing else is said; the others
/// are run more often.
const REPETITIONS: usize = 5;

struct Options {
    repetitions: usize,
    slips: PathBuf,
}

/// A script and how often it is run for each repetition.
struct Load {
    name: &'static str,
    script: Vec<u8>,
    times: usize,
}

fn main() -> ExitCode {
    let Some(options) = options() else {
        eprintln!("{USAGE}");
        return ExitCode::from(2);
    };
    match measure_all(&options) {
        Ok(true) => ExitCode::SUCCESS,
        Ok(false) => {
            println!("\nwrong: the outputs differ");
            ExitCode::FAILURE
        }
        Err(error) => {
            println!("not measured: {error}");
            ExitCode::from(2)
        }
    }
}

fn options() -> Option<Options> {
    let mut options = Options {
        repetitions: REPETITIONS,
        slips: Path::new(env!("CARGO_MANIFEST_DIR")).join("../crates/slips/out/slips"),
    };
    let words: Vec<String> = env::args().skip(1).collect();
    for two in words.chunks(2) {
        match two {
            [option, number] if option == "--repetitions" => {
                options.repetitions = number.parse().ok().filter(|&number| number > 0)?;
            }
            [option, program] if option == "--slips" => options.slips = PathBuf::from(program),
            _ => return None,
        }
    }
    Some(options)
}

fn loads() -> Vec<Load> {
    vec![
        Load {
            name: "empty (start-up)",
            script: Vec::new(),
            times: 40,
        },
        Load {
            name: "mixed",
            script: long::exact(),
            times: 8,
        },
        Load {
            name: "2,047 CUN, then SUN",
            script: nodes_and_lists(),
            times: 1,
        },
    ]
}

/// CUN of nodes 1 to 2,047, then SUN as often as 65,536 bytes allow.
fn nodes_and_lists() -> Vec<u8> {
    let nodes: String = (1..=2_047).map(|n| format!("CUN {n}\n")).collect();
    let mut script = nodes.into_bytes();
    let lists = (MOST_BYTES - script.len()) / 4;
    script.extend(b"SUN\n".repeat(lists));
    script
}

/// Prints the table; says whether the outputs are equal.
fn measure_all(options: &Options) -> io::Result<bool> {
    let second = env::current_exe()?.with_file_name("gaffdamson-reference");
    let programs = [options.slips.as_path(), &second];
    if let Some(missing) = programs.iter().find(|program| !program.exists()) {
        let problem = format!("{} is missing", missing.display());
        return Err(io::Error::other(problem));
    }
    let file = env::temp_dir().join(format!("bench-scripts-{}", std::process::id()));
    println!("| script | bytes read | bytes written | slips | second implementation | ratio |");
    println!("|---|---|---|---|---|---|");
    let mut all_agree = true;
    for load in loads() {
        fs::write(&file, &load.script)?;
        let result = measure(&load, &programs, &file, options.repetitions);
        fs::remove_file(&file)?;
        all_agree &= result?;
    }
    Ok(all_agree)
}

/// Prints the row of a script; says whether the outputs are equal.
fn measure(
    load: &Load,
    programs: &[&Path; 2],
    file: &Path,
    repetitions: usize,
) -> io::Result<bool> {
    let [slips, second] = [written(programs[0], file)?, written(programs[1], file)?];
    let (read, written) = (load.script.len(), second.bytes);
    if slips != second {
        println!("| {} | {read} | {written} | wrong | | |", load.name);
        return Ok(false);
    }
    let mut least = [Duration::MAX; 2];
    for place in 0..2 * repetitions * load.times {
        let time = time(programs[place % 2], file)?;
        least[place % 2] = least[place % 2].min(time);
    }
    let [slips, second] = least.map(|time| time.as_secs_f64() * 1e3);
    let ratio = slips / second;
    println!(
        "| {} | {read} | {written} | {slips:.2} ms | {second:.2} ms | {ratio:.2} |",
        load.name
    );
    Ok(true)
}

/// What a program writes: its length and a hash (FNV-1a).
#[derive(PartialEq, Eq)]
struct Written {
    bytes: usize,
    hash: u64,
}

fn written(program: &Path, file: &Path) -> io::Result<Written> {
    let mut child = Command::new(program)
        .stdin(File::open(file)?)
        .stdout(Stdio::piped())
        .spawn()?;
    let mut written = Written {
        bytes: 0,
        hash: 0xcbf2_9ce4_8422_2325,
    };
    if let Some(mut stdout) = child.stdout.take() {
        let mut part = vec![0; 1 << 16];
        loop {
            let count = stdout.read(&mut part)?;
            if count == 0 {
                break;
            }
            written.add(&part[..count]);
        }
    }
    end_well(child.wait()?.success())?;
    Ok(written)
}

impl Written {
    fn add(&mut self, part: &[u8]) {
        self.bytes += part.len();
        for &byte in part {
            self.hash = (self.hash ^ u64::from(byte)).wrapping_mul(0x100_0000_01b3);
        }
    }
}

/// The time from the start of a program to its end.
fn time(program: &Path, file: &Path) -> io::Result<Duration> {
    let input = File::open(file)?;
    let start = Instant::now();
    let status = Command::new(program)
        .stdin(input)
        .stdout(Stdio::null())
        .status()?;
    let time = start.elapsed();
    end_well(status.success())?;
    Ok(time)
}

fn end_well(did: bool) -> io::Result<()> {
    if did {
        Ok(())
    } else {
        Err(io::Error::other("a program ended badly"))
    }
}

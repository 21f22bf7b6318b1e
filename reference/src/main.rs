//! Runs a script as `slips` must, and a few other checks; see the usage.

use std::env;
use std::io::{self, BufWriter, Read, Write};
use std::process::ExitCode;

use gaffdamson_reference::machine::{Key, Machine, Value};
use gaffdamson_reference::{buffer, raw, script};

const USAGE: &str = "\
usage: gaffdamson-reference [options] < input
  (no mode)         the input is a script; prints what slips prints
  --raw             each input line is: operator n g m v s length
  --check-buffer    the input is the words of a buffer; is it a store?
  --capacity C      the constant C, at least 1 (default 2048)
  --list-length L   the length of a script's answer list (default 2048)
  --tuples          print the final state too, a line `# s n g m value` each
";

/// What the input is.
#[derive(Clone, Copy, PartialEq, Eq)]
enum Mode {
    Script,
    Raw,
    CheckBuffer,
}

struct Options {
    mode: Mode,
    capacity: usize,
    list_length: usize,
    print_tuples: bool,
}

/// Why the program ends early.
enum Failure {
    /// The options or the input don't have the form that the usage gives.
    Form(String),
    Transfer(io::Error),
}

impl From<io::Error> for Failure {
    fn from(error: io::Error) -> Failure {
        Failure::Transfer(error)
    }
}

fn main() -> ExitCode {
    let result = read_options(env::args().skip(1)).and_then(|options| perform(&options));
    match result {
        Ok(()) => ExitCode::SUCCESS,
        Err(Failure::Form(problem)) => {
            eprint!("{problem}\n{USAGE}");
            ExitCode::from(2)
        }
        Err(Failure::Transfer(error)) => {
            eprintln!("{error}");
            ExitCode::FAILURE
        }
    }
}

fn read_options(words: impl Iterator<Item = String>) -> Result<Options, Failure> {
    let mut options = Options {
        mode: Mode::Script,
        capacity: script::CAPACITY,
        list_length: script::LIST_LENGTH,
        print_tuples: false,
    };
    let mut words = words;
    while let Some(word) = words.next() {
        match word.as_str() {
            "--capacity" => options.capacity = read_count(&word, words.next(), 1)?,
            "--list-length" => options.list_length = read_count(&word, words.next(), 0)?,
            "--tuples" => options.print_tuples = true,
            "--raw" => set_mode(&mut options, Mode::Raw)?,
            "--check-buffer" => set_mode(&mut options, Mode::CheckBuffer)?,
            _ => return Err(Failure::Form(format!("unknown option: {word}"))),
        }
    }
    Ok(options)
}

fn set_mode(options: &mut Options, mode: Mode) -> Result<(), Failure> {
    if options.mode != Mode::Script && options.mode != mode {
        let problem = "--raw and --check-buffer exclude each other";
        return Err(Failure::Form(problem.to_string()));
    }
    options.mode = mode;
    Ok(())
}

fn read_count(option: &str, word: Option<String>, least: usize) -> Result<usize, Failure> {
    word.and_then(|word| word.parse().ok())
        .filter(|&count| count >= least)
        .ok_or_else(|| Failure::Form(format!("{option} needs a number, at least {least}")))
}

fn perform(options: &Options) -> Result<(), Failure> {
    let mut output = BufWriter::new(io::stdout().lock());
    let result = match options.mode {
        Mode::Script => run_script(options, &mut output),
        Mode::Raw => run_raw(options, &mut output),
        Mode::CheckBuffer => check_buffer(&mut output),
    };
    output.flush()?;
    result
}

/// Reads one byte more than a script may have, which is enough to refuse it.
fn run_script(options: &Options, output: &mut impl Write) -> Result<(), Failure> {
    let mut input = Vec::new();
    io::stdin()
        .lock()
        .take(script::MOST_BYTES as u64 + 1)
        .read_to_end(&mut input)?;
    let machine = script::run(&input, options.capacity, options.list_length, output)?;
    print_final_state(options, &machine, output)
}

fn run_raw(options: &Options, output: &mut impl Write) -> Result<(), Failure> {
    let mut machine = Machine::new(options.capacity);
    for line in io::stdin().lines() {
        let line = line?;
        let Some(call) = raw::read_call(&line) else {
            return Err(Failure::Form(format!("not a raw call: {line}")));
        };
        script::print_answer(&machine.step(&call), output)?;
    }
    print_final_state(options, &machine, output)
}

fn check_buffer(output: &mut impl Write) -> Result<(), Failure> {
    let input = io::read_to_string(io::stdin())?;
    let mut words = Vec::new();
    for word in input.split_ascii_whitespace() {
        let Ok(number) = word.parse::<u32>() else {
            return Err(Failure::Form(format!("not a word of a buffer: {word}")));
        };
        words.push(number);
    }
    if !buffer::is_store(&words) {
        writeln!(output, "not a store")?;
        return Ok(());
    }
    writeln!(output, "store")?;
    print_tuples(buffer::tuples(&words).into_iter(), output)
}

fn print_final_state(
    options: &Options,
    machine: &Machine,
    output: &mut impl Write,
) -> Result<(), Failure> {
    if options.print_tuples {
        print_tuples(machine.tuples(), output)?;
    }
    Ok(())
}

fn print_tuples(
    tuples: impl Iterator<Item = (Key, Value)>,
    output: &mut impl Write,
) -> Result<(), Failure> {
    for (key, value) in tuples {
        let Key { s, n, g, m } = key;
        writeln!(output, "# {} {} {} {} {value}", s.0, n.0, g.0, m.0)?;
    }
    Ok(())
}

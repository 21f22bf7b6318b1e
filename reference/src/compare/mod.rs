//! A program that runs scripts, held to what `slips` must print.

pub mod tally;

use std::io::{self, Read, Write};
use std::path::Path;
use std::process::{Child, Command, Stdio};
use std::thread;

use crate::script::{self, CAPACITY, LIST_LENGTH, MOST_BYTES};

/// The input is handed over in pieces of so many bytes, so that a program
/// meets reads that give less than it asks for.
const PIECE: usize = 3_000;

/// What a program did with a script.
pub struct Run {
    pub output: Vec<u8>,
    pub ended_well: bool,
}

/// Runs a program on a script.
pub fn run(program: &Path, input: &[u8]) -> io::Result<Run> {
    let mut child = Command::new(program)
        .stdin(Stdio::piped())
        .stdout(Stdio::piped())
        .spawn()?;
    let output = transfer(&mut child, input)?;
    let ended_well = child.wait()?.success();
    Ok(Run { output, ended_well })
}

/// Writes the input while the output is read.
fn transfer(child: &mut Child, input: &[u8]) -> io::Result<Vec<u8>> {
    let stdin = child.stdin.take();
    let mut output = Vec::new();
    thread::scope(|scope| {
        scope.spawn(|| {
            if let Some(mut stdin) = stdin {
                // A program need not read all of what is too long.
                let _ = input
                    .chunks(PIECE)
                    .try_for_each(|piece| stdin.write_all(piece));
            }
        });
        match child.stdout.take() {
            Some(mut stdout) => stdout.read_to_end(&mut output),
            None => Ok(0),
        }
    })?;
    Ok(output)
}

/// What `slips` must print for a script, and how many tuples there are then.
pub struct Expected {
    pub output: Vec<u8>,
    tuples: usize,
}

impl Expected {
    pub fn of(input: &[u8]) -> Expected {
        let mut output = Vec::new();
        let machine = script::run(input, CAPACITY, LIST_LENGTH, &mut output);
        let machine = machine.expect("a vector takes all bytes");
        Expected {
            output,
            tuples: machine.tuples().count(),
        }
    }
}

/// What is wrong with a run, if anything: the first line that differs from
/// what `slips` must print, numbers of tuples that don't add up, or how the
/// program ended.
pub fn difference(input: &[u8], expected: &Expected, run: &Run) -> Option<String> {
    if run.output != expected.output {
        return Some(first_difference(input, &expected.output, &run.output));
    }
    let (added, removed) = changes(&run.output);
    if 1 + added != expected.tuples + removed {
        let tuples = expected.tuples;
        return Some(format!(
            "{added} tuples added and {removed} removed leave {tuples}"
        ));
    }
    (!run.ended_well).then(|| "all printed, but the program ended badly".to_string())
}

/// How many tuples the printed answers say were added, and how many were
/// removed. Request 2: "Over any list of calls from a fresh store, the added
/// less the removed is the tuples at the end less one."
pub fn changes(output: &[u8]) -> (usize, usize) {
    let (mut added, mut removed) = (0, 0);
    for line in script::lines(output) {
        let words: Vec<&[u8]> = line.split(|&byte| byte == b' ').collect();
        match words[..] {
            [b"=", _, [b'+', digits @ ..]] => added += count_of(digits),
            [b"=", _, [b'-', digits @ ..]] => removed += count_of(digits),
            _ => (),
        }
    }
    (added, removed)
}

fn count_of(digits: &[u8]) -> usize {
    let text = std::str::from_utf8(digits).unwrap_or_default();
    text.parse().unwrap_or_default()
}

fn first_difference(input: &[u8], expected: &[u8], output: &[u8]) -> String {
    let expected = script::lines(expected);
    let output = script::lines(output);
    let most = expected.len().max(output.len());
    let Some(place) = (0..most).find(|&place| expected.get(place) != output.get(place)) else {
        return "the last line feed differs".to_string();
    };
    let call = if input.len() > MOST_BYTES {
        format!("{} bytes", input.len())
    } else {
        shown(script::lines(input).get(place))
    };
    format!(
        "line {}: {call} gives {}, expected {}",
        place + 1,
        shown(output.get(place)),
        shown(expected.get(place))
    )
}

/// A line as plain text, cut where it is long.
fn shown(line: Option<&&[u8]>) -> String {
    const MOST: usize = 200;
    match line {
        None => "nothing".to_string(),
        Some(line) if line.len() > MOST => format!("`{}...`", line[..MOST].escape_ascii()),
        Some(line) => format!("`{}`", line.escape_ascii()),
    }
}

#[cfg(test)]
mod tests {
    use super::*;

    const SCRIPT: &[u8] = b"CUN 1\nSUN\n\nXUN 2";

    fn found(output: &[u8], ended_well: bool) -> Option<String> {
        let run = Run {
            output: output.to_vec(),
            ended_well,
        };
        difference(SCRIPT, &Expected::of(SCRIPT), &run)
    }

    #[test]
    fn equal_output_has_no_difference() {
        assert_eq!(found(b"= 1 +1\nL 1 0:1\nR 11\nNIL\n", true), None);
    }

    #[test]
    fn each_difference_is_found() {
        let cases: [(&[u8], &str); 8] = [
            (b"", "line 1: `CUN 1` gives nothing, expected `= 1 +1`"),
            (
                b"= 1 +1\nL 1 0:1\nR 11\n",
                "line 4: `XUN 2` gives nothing, expected `NIL`",
            ),
            (
                b"= 1 +1\nR 11\nR 11\nNIL\n",
                "line 2: `SUN` gives `R 11`, expected `L 1 0:1`",
            ),
            (
                b"= 1 +1\nL 1 0:1\nNIL\n",
                "line 3: `` gives `NIL`, expected `R 11`",
            ),
            (
                b"= 1 +1\nL 1 0:1 \nR 11\nNIL\n",
                "line 2: `SUN` gives `L 1 0:1 `, expected `L 1 0:1`",
            ),
            (b"= 1 +1\nL 1 0:1\nR 11\nNIL", "the last line feed differs"),
            (
                b"= 1 +1\nL 1 0:1\nR 11\nNIL\n\n",
                "line 5: nothing gives ``, expected nothing",
            ),
            (
                b"= 1 +1\r\nL 1 0:1\nR 11\nNIL\n",
                "line 1: `CUN 1` gives `= 1 +1\\r`, expected `= 1 +1`",
            ),
        ];
        for (output, expected) in cases {
            assert_eq!(found(output, true).as_deref(), Some(expected));
        }
    }

    #[test]
    fn the_numbers_are_added_up() {
        let output = b"= 9 +1\n= 1 +2\n= 1\nL 1 0:1\nR 10\n= 1 -3\n= 7 -0\n= 2 +14\nV 5\n";
        assert_eq!(changes(output), (17, 3));
        assert_eq!(changes(b""), (0, 0));
    }

    #[test]
    fn numbers_that_do_not_add_up_are_found() {
        let expected = Expected {
            tuples: 3,
            ..Expected::of(SCRIPT)
        };
        let run = Run {
            output: expected.output.clone(),
            ended_well: true,
        };
        let problem = difference(SCRIPT, &expected, &run);
        let text = "1 tuples added and 0 removed leave 3";
        assert_eq!(problem.as_deref(), Some(text));
    }

    #[test]
    fn a_program_must_end_well() {
        let problem = found(b"= 1 +1\nL 1 0:1\nR 11\nNIL\n", false);
        assert!(problem.is_some_and(|problem| problem.contains("ended badly")));
    }

    #[test]
    fn what_is_too_long_is_shown_by_its_length() {
        let input = b"SUN\n".repeat(20_000);
        let run = Run {
            output: b"L 0\n".to_vec(),
            ended_well: true,
        };
        let problem = difference(&input, &Expected::of(&input), &run);
        let expected = "line 1: 80000 bytes gives `L 0`, expected `R 11`";
        assert_eq!(problem.as_deref(), Some(expected));
    }
}

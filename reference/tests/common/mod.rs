//! What tests share.
#![allow(dead_code)]

pub mod compared;
pub mod lent;
pub mod page;

use gaffdamson_reference::machine::Machine;
use gaffdamson_reference::script;

/// The constant C and the length of the answer list of `slips`.
pub const SLIPS: usize = 2048;

/// What `slips` prints for a script.
pub fn printed(input: &[u8]) -> String {
    printed_with(input, SLIPS, SLIPS).0
}

/// What a script prints with a given C and list length, and the machine then.
pub fn printed_with(input: &[u8], capacity: usize, list_length: usize) -> (String, Machine) {
    let mut output = Vec::new();
    let machine =
        script::run(input, capacity, list_length, &mut output).expect("a vector takes all bytes");
    let text = String::from_utf8(output).expect("answers are plain text");
    (text, machine)
}

/// Checks the answer to each line of a script.
pub fn check(lines: &[(&str, &str)]) -> Machine {
    check_with(SLIPS, SLIPS, lines)
}

/// Checks the answer to each line with a given C and list length.
pub fn check_with(capacity: usize, list_length: usize, lines: &[(&str, &str)]) -> Machine {
    let script: String = lines.iter().map(|(line, _)| format!("{line}\n")).collect();
    let (text, machine) = printed_with(script.as_bytes(), capacity, list_length);
    let answers: Vec<&str> = text.lines().collect();
    assert_eq!(answers.len(), lines.len());
    for (place, ((line, expected), answer)) in lines.iter().zip(answers).enumerate() {
        assert_eq!(answer, *expected, "line {}: {line}", place + 1);
    }
    machine
}

/// Runs lines whose answers don't matter, then checks the answers to others.
pub fn check_after(before: &[&str], lines: &[(&str, &str)]) -> Machine {
    let mut script: String = before.iter().map(|line| format!("{line}\n")).collect();
    script.extend(lines.iter().map(|(line, _)| format!("{line}\n")));
    let (text, machine) = printed_with(script.as_bytes(), SLIPS, SLIPS);
    let answers: Vec<&str> = text.lines().collect();
    assert_eq!(answers.len(), before.len() + lines.len());
    for (line, answer) in before.iter().zip(&answers) {
        assert!(answer.starts_with('='), "{line} gives {answer}");
    }
    for ((line, expected), answer) in lines.iter().zip(&answers[before.len()..]) {
        assert_eq!(answer, expected, "{line}");
    }
    machine
}

/// The final state as tuples (s, n, g, m, value).
pub fn state(machine: &Machine) -> Vec<(u16, u16, u16, u16, u32)> {
    machine
        .tuples()
        .map(|(key, value)| (key.s.0, key.n.0, key.g.0, key.m.0, value))
        .collect()
}

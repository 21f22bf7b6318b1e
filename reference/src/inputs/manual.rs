//! The manual's examples as one script.
//!
//! In `manual/` each script starts on a fresh store and builds its graph. Here
//! a graph is built once, and after a call that changed it some lines turn it
//! back. Of such a script, the reading of the whole graph at its end is left
//! out; once all scripts of a graph have run, it is read as described.

use std::fs;
use std::io;
use std::path::{Path, PathBuf};

use crate::machine::{Key, Machine, UNIVERSE};
use crate::random::scripts::state_after;
use crate::script::{self, read_call, CAPACITY, LIST_LENGTH};

/// The graphs, in the manual's order.
const GRAPHS: [&str; 4] = ["railroad", "xor", "tree", "phrase"];

/// What other inputs have: `slips`, `slips_refusals`, `slips_unreadable` and
/// `slips_full`.
const ELSEWHERE: [&str; 6] = [
    "table-of-sixteen",
    "order-of-refusals",
    "script-lines",
    "full-CAP",
    "full-CAP-space",
    "full-nodes",
];

/// A script, its answers as the examples have them, and the state after it.
pub struct Joined {
    pub script: Vec<u8>,
    pub expected: Vec<u8>,
    machine: Machine,
}

/// All examples below the folder `manual` that no other input has.
pub fn joined(manual: &Path) -> io::Result<Joined> {
    let mut joined = Joined {
        script: Vec::new(),
        expected: Vec::new(),
        machine: Machine::new(CAPACITY),
    };
    for graph in GRAPHS {
        joined.add_graph(manual, graph)?;
    }
    for file in scripts(&manual.join("additions"))? {
        let example = Example::read(&file)?;
        if !ELSEWHERE.contains(&example.name.as_str()) {
            joined.add(&example.lines);
            joined.turn_into(&Machine::new(CAPACITY));
        }
    }
    Ok(joined)
}

/// The scripts of a folder, by name.
fn scripts(folder: &Path) -> io::Result<Vec<PathBuf>> {
    let mut files = Vec::new();
    for entry in fs::read_dir(folder)? {
        files.push(entry?.path());
    }
    files.retain(|file| file.extension().is_some_and(|found| found == "script"));
    files.sort();
    Ok(files)
}

/// A line of a script and its answer.
type Answered = (Vec<u8>, Vec<u8>);

/// A script of the manual's examples with the answers that stand beside it.
struct Example {
    name: String,
    lines: Vec<Answered>,
}

impl Example {
    fn read(file: &Path) -> io::Result<Example> {
        let script = fs::read(file)?;
        let expected = fs::read(file.with_extension("expected"))?;
        let name = file.file_stem().unwrap_or_default();
        let answers = script::lines(&expected);
        let lines = script::lines(&script).into_iter().zip(answers);
        Ok(Example {
            name: name.to_string_lossy().into_owned(),
            lines: lines
                .map(|(line, answer)| (line.to_vec(), answer.to_vec()))
                .collect(),
        })
    }

    /// `NN-OPERATOR-GRAPH` or, of a call that changes the graph,
    /// `NN-OPERATOR-GRAPH-N`.
    fn graph(&self) -> Option<&str> {
        self.name.split('-').nth(2)
    }

    /// The calls of an operator, without the lines that build the graph, and
    /// without the reading of the whole graph, which starts with SUS.
    fn calls(&self, building: usize) -> &[Answered] {
        let calls = &self.lines[building..];
        let changes_graph = self.name.split('-').count() == 4;
        let reading = calls.iter().position(|(line, _)| line == b"SUS");
        match reading {
            Some(place) if changes_graph => &calls[..place],
            _ => calls,
        }
    }
}

impl Joined {
    /// A graph, the calls of its operators, and what it is described as.
    fn add_graph(&mut self, manual: &Path, graph: &str) -> io::Result<()> {
        let file = manual.join(format!("graphs/{graph}.script"));
        let built = Example::read(&file)?.lines;
        let state = state_after(&fs::read(&file)?);
        self.add(&built);
        for file in scripts(&manual.join("operators"))? {
            let example = Example::read(&file)?;
            if example.graph() == Some(graph) {
                self.add(example.calls(built.len()));
                self.turn_into(&state);
            }
        }
        let described = manual.join(format!("graphs/{graph}-described.script"));
        self.add(&Example::read(&described)?.lines[built.len()..]);
        self.turn_into(&Machine::new(CAPACITY));
        Ok(())
    }

    fn add(&mut self, lines: &[Answered]) {
        for (line, answer) in lines {
            if let Some(call) = read_call(line, LIST_LENGTH) {
                self.machine.step(&call);
            }
            for (text, part) in [(&mut self.script, line), (&mut self.expected, answer)] {
                text.extend(part);
                text.push(b'\n');
            }
        }
    }

    /// A line that is answered with a name.
    fn add_line(&mut self, line: String) {
        let answer = read_call(line.as_bytes(), LIST_LENGTH).map(|call| self.machine.step(&call));
        let mut printed = Vec::new();
        if let Some(answer) = answer {
            script::print_answer(&answer, &mut printed).expect("a vector takes all bytes");
        }
        self.script.extend(line.into_bytes());
        self.script.push(b'\n');
        self.expected.extend(printed);
    }

    /// Lines that turn the state into another one.
    fn turn_into(&mut self, state: &Machine) {
        self.remove_others(state);
        for is_kind in [Key::is_space, Key::is_node, Key::is_edge] {
            self.create_missing(state, is_kind);
        }
        self.set_values(state);
    }

    /// Removes what another state doesn't have.
    fn remove_others(&mut self, state: &Machine) {
        for (key, _) in self.machine.clone().tuples() {
            if value(&self.machine, key).is_some() && value(state, key).is_none() {
                self.add_line(removal(key));
            }
        }
    }

    /// Creates what another state has, of one kind of tuples.
    fn create_missing(&mut self, state: &Machine, is_kind: fn(&Key) -> bool) {
        for (key, _) in state.tuples().filter(|(key, _)| is_kind(key)) {
            if value(&self.machine, key).is_none() {
                self.add_line(creation(key));
            }
        }
    }

    /// Sets the values that another state has otherwise.
    fn set_values(&mut self, state: &Machine) {
        for (key, wanted) in state.tuples() {
            if value(&self.machine, key) != Some(wanted) {
                self.add_line(binding(key, wanted));
            }
        }
    }
}

/// The value of a tuple, if it is there.
fn value(machine: &Machine, key: Key) -> Option<u32> {
    machine
        .tuples()
        .find(|&(found, _)| found == key)
        .map(|(_, value)| value)
}

/// What stands in a line for a key's space: nothing for UNIVERSE.
fn last_word(key: Key) -> String {
    if key.s == UNIVERSE {
        String::new()
    } else {
        format!(" {}", key.s.0)
    }
}

/// What stands in a line for the names of a key without its space.
fn first_words(key: Key) -> String {
    if key.is_node() {
        format!("{}", key.n.0)
    } else {
        format!("{} {} {}", key.n.0, key.g.0, key.m.0)
    }
}

/// The line of the operator with this first letter on what a key names.
fn unit_line(first_letter: char, key: Key) -> String {
    let s = last_word(key);
    if key.is_space() {
        return format!("{first_letter}US{s}");
    }
    let letters = if key.is_node() { "UN" } else { "OP" };
    format!("{first_letter}{letters} {}{s}", first_words(key))
}

fn removal(key: Key) -> String {
    unit_line('D', key)
}

fn creation(key: Key) -> String {
    unit_line('C', key)
}

fn binding(key: Key, value: u32) -> String {
    let s = last_word(key);
    if key.is_space() {
        let s = if s.is_empty() { " U" } else { &s };
        return format!("BUS{s} {value}");
    }
    let letters = if key.is_node() { "BUN" } else { "BOP" };
    format!("{letters} {} {value}{s}", first_words(key))
}

#[cfg(test)]
mod tests {
    use super::*;

    #[test]
    fn the_answers_are_those_of_the_examples() {
        let manual = Path::new(env!("CARGO_MANIFEST_DIR")).join("manual");
        let joined = joined(&manual).expect("the examples can be read");
        assert!(joined.script.len() <= script::MOST_BYTES);
        assert!(script::printed(&joined.script) == joined.expected);
        assert_eq!(state_after(&joined.script), Machine::new(CAPACITY));
    }
}

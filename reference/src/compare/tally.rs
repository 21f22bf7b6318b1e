//! What occurs in the scripts of a comparison.

use std::collections::BTreeMap;
use std::fmt;

use crate::operators;
use crate::script::{self, LIST_LENGTH, MOST_BYTES};

/// Counts over scripts and their expected answers.
#[derive(Default)]
pub struct Tally {
    scripts: usize,
    empty: usize,
    longest: usize,
    too_long: usize,
    mostly_answered: usize,
    lines: usize,
    /// For each kind of answer (`=`, `= +`, `= +0`, `= -`, `= -0`, `V`, `T`,
    /// `NIL`, `L`, `R` with a number): how many lines have it, and how many
    /// scripts.
    answers: BTreeMap<String, [usize; 2]>,
    /// For each operator, how many of its calls are answered.
    operators: BTreeMap<u32, usize>,
}

impl Tally {
    /// Adds a script and what `slips` must print for it.
    pub fn add(&mut self, input: &[u8], expected: &[u8]) {
        self.scripts += 1;
        self.empty += usize::from(input.is_empty());
        self.longest += usize::from(input.len() == MOST_BYTES);
        if input.len() > MOST_BYTES {
            self.too_long += 1;
            return;
        }
        let lines = script::lines(input);
        let answers = script::lines(expected);
        let answered = answers.iter().filter(|answer| is_answer(answer)).count();
        self.mostly_answered += usize::from(2 * answered > answers.len());
        self.lines += lines.len();
        self.add_answers(&answers);
        for (line, _) in lines.iter().zip(&answers).filter(|(_, a)| is_answer(a)) {
            if let Some(call) = script::read_call(line, LIST_LENGTH) {
                *self.operators.entry(call.operator).or_default() += 1;
            }
        }
    }

    fn add_answers(&mut self, answers: &[&[u8]]) {
        let mut counts: BTreeMap<String, usize> = BTreeMap::new();
        for answer in answers {
            *counts.entry(kind(answer)).or_default() += 1;
        }
        for (kind, count) in counts {
            let [lines, scripts] = self.answers.entry(kind).or_default();
            *lines += count;
            *scripts += 1;
        }
    }

    /// Adds all that another tally has.
    pub fn merge(&mut self, other: Tally) {
        self.scripts += other.scripts;
        self.empty += other.empty;
        self.longest += other.longest;
        self.too_long += other.too_long;
        self.mostly_answered += other.mostly_answered;
        self.lines += other.lines;
        for (kind, [lines, scripts]) in other.answers {
            let sum = self.answers.entry(kind).or_default();
            *sum = [sum[0] + lines, sum[1] + scripts];
        }
        for (operator, count) in other.operators {
            *self.operators.entry(operator).or_default() += count;
        }
    }

    /// The kinds of answers that occur.
    pub fn kinds(&self) -> Vec<&str> {
        self.answers.keys().map(String::as_str).collect()
    }

    /// The operators that are answered somewhere.
    pub fn operators(&self) -> Vec<u32> {
        self.operators.keys().copied().collect()
    }

    /// Of the scripts that run, those most of whose lines are answered.
    pub fn mostly_answered(&self) -> (usize, usize) {
        (self.mostly_answered, self.scripts - self.too_long)
    }
}

fn is_answer(answer: &[u8]) -> bool {
    !answer.starts_with(b"R ")
}

/// The first word of an answer; of a refusal, all of it; of a name, with the
/// sign of the number beside it, and the number if it is 0.
fn kind(answer: &[u8]) -> String {
    let answer = String::from_utf8_lossy(answer);
    let words: Vec<&str> = answer.split(' ').collect();
    match words[..] {
        ["=", _, number @ ("+0" | "-0")] => format!("= {number}"),
        ["=", _, number] => format!("= {}", &number[..1]),
        ["R", ..] => answer.into_owned(),
        _ => words[0].to_string(),
    }
}

impl fmt::Display for Tally {
    fn fmt(&self, f: &mut fmt::Formatter) -> fmt::Result {
        writeln!(
            f,
            "{} scripts: {} empty, {} of {MOST_BYTES} bytes, {} longer, {} with most lines answered",
            self.scripts, self.empty, self.longest, self.too_long, self.mostly_answered
        )?;
        writeln!(f, "{} lines", self.lines)?;
        for (kind, [lines, scripts]) in &self.answers {
            let share = 100.0 * *lines as f64 / self.lines as f64;
            writeln!(f, "{kind:5} {share:6.2} % of lines, in {scripts} scripts")?;
        }
        write!(f, "{} operators answered", self.operators.len())?;
        match self.operators.iter().min_by_key(|(_, &count)| count) {
            Some((&operator, count)) => {
                let letters = operators::letters(operator).unwrap_or_default();
                writeln!(f, ", the least often {letters} ({operator}): {count} times")
            }
            None => writeln!(f),
        }
    }
}

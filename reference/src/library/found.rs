//! What a comparison has found.

use std::collections::BTreeSet;
use std::fmt;

use super::beside::Checked;
use crate::machine::{Answer, Call};

/// So many cases that differ are described.
const MOST_DESCRIBED: usize = 20;

/// What has been compared, and what differs.
#[derive(Default)]
pub struct Found {
    pub passed: usize,
    pub failed: usize,
    pub(super) calls: usize,
    problems: Vec<String>,
    lists: usize,
    answered: BTreeSet<u32>,
    refusals: BTreeSet<u32>,
    pub(super) added: usize,
    pub(super) removed: usize,
    capacities: BTreeSet<usize>,
    buffers: usize,
    stores: usize,
}

impl Found {
    /// Counts a case; says whether it passed.
    pub(super) fn add(&mut self, checked: Checked, name: impl FnOnce() -> String) -> bool {
        match checked {
            Ok(()) => self.passed += 1,
            Err(problem) => {
                self.failed += 1;
                if self.problems.len() < MOST_DESCRIBED {
                    self.problems.push(format!("{}: {problem}", name()));
                }
                return false;
            }
        }
        true
    }

    pub(super) fn add_list(&mut self, capacity: usize) {
        self.lists += 1;
        self.capacities.insert(capacity);
    }

    pub(super) fn add_call(&mut self, call: &Call, answer: &Answer) {
        self.calls += 1;
        match answer {
            Answer::Refusal(number) => self.refusals.insert(*number),
            _ => self.answered.insert(call.operator),
        };
        match answer {
            Answer::Added(_, count) => self.added += count,
            Answer::Removed(_, count) => self.removed += count,
            _ => (),
        }
    }

    pub(super) fn add_buffer(&mut self, is_store: bool) {
        self.buffers += 1;
        self.stores += usize::from(is_store);
    }
}

/// What occurred, what differs, and last how many passed and failed.
impl fmt::Display for Found {
    fn fmt(&self, f: &mut fmt::Formatter) -> fmt::Result {
        let refusals: Vec<String> = self.refusals.iter().map(u32::to_string).collect();
        writeln!(
            f,
            "{} calls in {} lists, {} different C, {} operators answered, refusals {}",
            self.calls,
            self.lists,
            self.capacities.len(),
            self.answered.len(),
            refusals.join(" ")
        )?;
        writeln!(
            f,
            "{} tuples added and {} removed by these calls",
            self.added, self.removed
        )?;
        let others = self.passed + self.failed - self.calls - self.buffers;
        writeln!(
            f,
            "{} damaged buffers, {} of them stores; {others} other cases",
            self.buffers, self.stores
        )?;
        for problem in &self.problems {
            writeln!(f, "{problem}")?;
        }
        write!(f, "{} passed, {} failed", self.passed, self.failed)
    }
}

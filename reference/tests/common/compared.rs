//! The hand-written store beside the tuple machine.

use gaffdamson_reference::machine::{Answer, Call, Machine, Space};
use gaffdamson_reference::{buffer, chained, operators, packed};

use super::lent::{answer_of, LONGEST_LIST, UNWRITTEN};

pub struct Compared {
    pub machine: Machine,
    pub words: Vec<u32>,
}

impl Compared {
    /// Both fresh, with this C and some words past the last record.
    pub fn new(capacity: usize, past: usize) -> Compared {
        let mut words = vec![7; 4 + 6 * capacity + past];
        assert_eq!(chained::prepare(&mut words), Ok(capacity as u32));
        Compared {
            machine: Machine::new(capacity),
            words,
        }
    }

    /// Makes a call on both, on the store with the check and without, and
    /// compares all that they leave.
    pub fn step(&mut self, call: &Call) -> Answer {
        let expected = self.machine.step(call);
        let mut checked = self.words.clone();
        assert_eq!(run(chained::execute, &mut checked, call), expected);
        let before = self.words.clone();
        let answer = run(chained::execute_known, &mut self.words, call);
        assert_eq!(answer, expected, "{call:?}");
        assert_eq!(checked, self.words);
        let may_change = operators::writes(call.operator) && call.space != Space::Nothing;
        if !may_change || matches!(answer, Answer::Refusal(_)) {
            assert_eq!(self.words, before, "{call:?}");
        }
        answer
    }

    /// Makes a call, then with lists of lengths around k where it lists.
    pub fn step_around_k(&mut self, call: &Call) {
        let long = Call {
            list_length: LONGEST_LIST,
            ..*call
        };
        self.step(call);
        if let Answer::List(entries) = self.machine.clone().step(&long) {
            let k = entries.len();
            for list_length in [0, k.saturating_sub(1), k, k + 1, k + 2] {
                self.step(&Call {
                    list_length,
                    ..*call
                });
            }
        }
    }

    /// The store holds the machine's tuples, and is one by both checks.
    pub fn check_state(&self) {
        assert!(chained::is_store(&self.words));
        let tuples: Vec<_> = self.machine.tuples().collect();
        assert_eq!(buffer::tuples(&self.words), tuples);
        let past = self.words[0] as usize * 6 + 4;
        assert!(self.words[past..].iter().all(|&word| word == 7));
    }
}

/// The answer of a call with the pairs of its list.
fn run(
    execute: fn(&mut [u32], &Call, &mut [u32]) -> chained::Answer,
    words: &mut [u32],
    call: &Call,
) -> Answer {
    let mut list = vec![UNWRITTEN; call.list_length.min(LONGEST_LIST)];
    let answer = execute(words, call, &mut list);
    answer_of(packed::words_of(answer), &list)
}

//! What is measured: each side makes the same calls and writes the same words.

use gaffdamson_reference::buffer;
#[cfg(feature = "rattle")]
use gaffdamson_reference::library::PROVED;
use gaffdamson_reference::library::{Library, HAND_WRITTEN};
use gaffdamson_reference::machine::{Call, Key, Machine, Value};
use gaffdamson_reference::packed::{self, WORDS_IN_AN_ANSWER};

/// C of every load.
pub const CAPACITY: usize = 2_048;

/// Calls made one after the other; of the lists, one stands after the other.
pub struct Run<'a> {
    pub calls: &'a [Call],
    pub packed: &'a [u32],
    pub answers: &'a mut [u32],
    pub lists: &'a mut [u32],
}

pub trait Side {
    fn name(&self) -> &'static str;

    /// Makes a fresh store.
    fn prepare(&mut self);

    /// Makes calls on a store that is checked once before them.
    fn run_known(&mut self, run: Run);

    /// Makes calls, with a check of the store before each.
    fn run_checked(&mut self, run: Run);

    /// The tuples that are there.
    fn tuples(&self) -> Vec<(Key, Value)>;
}

/// All sides that are there.
pub fn all() -> Vec<Box<dyn Side>> {
    vec![
        Box::new(OrderedMap(Machine::new(CAPACITY))),
        Box::new(InBuffer::new("hand-written", HAND_WRITTEN)),
        #[cfg(feature = "rattle")]
        Box::new(InBuffer::new("proved", PROVED)),
    ]
}

/// Each call with its answer and its list.
fn parts(
    run: Run<'_>,
) -> impl Iterator<Item = (&Call, &mut [u32; WORDS_IN_AN_ANSWER], &mut [u32])> {
    let mut rest = run.lists;
    let (answers, _) = run.answers.as_chunks_mut();
    run.calls.iter().zip(answers).map(move |(call, answer)| {
        let (list, others) = std::mem::take(&mut rest).split_at_mut(call.list_length);
        rest = others;
        (call, answer, list)
    })
}

/// The second implementation. It has no buffer that could be checked.
struct OrderedMap(Machine);

impl Side for OrderedMap {
    fn name(&self) -> &'static str {
        "ordered map"
    }

    fn prepare(&mut self) {
        self.0 = Machine::new(CAPACITY);
    }

    fn run_known(&mut self, run: Run) {
        for (call, answer, list) in parts(run) {
            *answer = packed::write(&self.0.step(call), list);
        }
    }

    fn run_checked(&mut self, run: Run) {
        self.run_known(run);
    }

    fn tuples(&self) -> Vec<(Key, Value)> {
        self.0.tuples().collect()
    }
}

/// A store in a buffer, with the functions that work on it.
struct InBuffer {
    name: &'static str,
    functions: Library,
    words: Vec<u32>,
}

impl InBuffer {
    fn new(name: &'static str, functions: Library) -> InBuffer {
        let words = vec![0; 4 + 6 * CAPACITY];
        InBuffer {
            name,
            functions,
            words,
        }
    }
}

impl Side for InBuffer {
    fn name(&self) -> &'static str {
        self.name
    }

    fn prepare(&mut self) {
        (self.functions.prepare)(&mut self.words).expect("the length is right");
    }

    /// What is left unwritten after a refusal shows in the answers.
    fn run_known(&mut self, run: Run) {
        (self.functions.run)(&mut self.words, run.packed, run.answers, run.lists);
    }

    fn run_checked(&mut self, run: Run) {
        for (call, answer, list) in parts(run) {
            *answer = self
                .functions
                .call
                .make(&mut self.words, &packed::fields(call), list);
        }
    }

    fn tuples(&self) -> Vec<(Key, Value)> {
        buffer::tuples(&self.words)
    }
}

//! The graph store of a knitting pattern compiler: loops are nodes, yarn runs
//! and transfers are edges, each needle selection is a space.
//!
//! The store is proved; this crate is a safe interface to its static library.
//! A graph stands in a buffer of words, [`LENGTHS`] of them, that is lent to
//! each call. [`Store`] owns such a buffer:
//!
//! ```
//! use gaffdamson::{operator, Call, Node, Pair, Reply, Store};
//!
//! let mut store = Store::new(16)?;
//! for loop_name in [1, 2] {
//!     store.call(&Call { n: Node(loop_name), ..Call::new(operator::CUN) })?;
//! }
//! let nodes = store.call(&Call::new(operator::SUN))?;
//! let pair = |node| Pair { edge: 0, node };
//! assert_eq!(nodes, Reply::List(vec![pair(1), pair(2)]));
//! # Ok::<(), gaffdamson::Refusal>(())
//! ```
//!
//! The functions below are those of the library, on slices. They allocate
//! nothing, and take any buffer of any length. A refusal changes nothing.
//!
//! The page `docs/STORE.md` of the repository says what each word of a buffer
//! means, and exactly what each operator does.
#![deny(missing_docs, unsafe_code)]

mod answer;
#[allow(unsafe_code)]
mod c;
mod call;
pub mod operator;
mod store;
mod words;

use std::ops::RangeInclusive;

pub use answer::{Answer, Pair, Refusal};
pub use call::{Call, Edge, Node, Space, SpaceName};
pub use store::{Reply, Store};
pub use words::{AnswerWords, CallWords, WORDS_IN_AN_ANSWER, WORDS_IN_A_CALL};

/// How many words a store has. It has room for (length − 4) / 6 tuples, rounded
/// down, UNIVERSE among them.
pub const LENGTHS: RangeInclusive<usize> = 10..=12_297;

/// How many tuples a store can hold at most. No list has more entries.
pub const MOST_RECORDS: usize = 2_048;

/// Makes a fresh store of a buffer, with UNIVERSE alone in it, and gives its
/// capacity; or refusal 1 where its length is not one of [`LENGTHS`].
///
/// ```
/// let mut words = [7; 16];
/// assert_eq!(gaffdamson::prepare(&mut words), Ok(2));
/// assert!(gaffdamson::is_store(&words));
/// assert!(gaffdamson::prepare(&mut words[..9]).is_err());
/// ```
pub fn prepare(store: &mut [u32]) -> Result<u32, Refusal> {
    answer::of_preparing(c::prepare(store))
}

/// Whether a buffer is a store.
pub fn is_store(store: &[u32]) -> bool {
    c::is_store(store) == 1
}

/// Makes one call. The whole buffer is checked first: one that is not a store
/// is refused, 1.
///
/// A list stands in the first places of `list`, packed as `edge × 65,536 +
/// node` ([`Pair`] converts from that); the rest of it stays.
pub fn call(store: &mut [u32], call: &Call, list: &mut [u32]) -> Answer {
    Answer::of_call(c::call(store, call.into(), list))
}

/// Makes one call as [`call`] does, with a list of pairs.
///
/// ```
/// use gaffdamson::{call_pairs, operator, prepare, Answer, Call, Pair};
///
/// let mut words = [0; 16];
/// prepare(&mut words)?;
/// let mut list = [Pair { edge: 9, node: 9 }; 2];
/// let answer = call_pairs(&mut words, &Call::new(operator::SUS), &mut list);
/// assert_eq!(answer, Answer::List(1));
/// assert_eq!(list, [Pair { edge: 0, node: 0 }, Pair { edge: 9, node: 9 }]);
/// # Ok::<(), gaffdamson::Refusal>(())
/// ```
pub fn call_pairs(store: &mut [u32], call: &Call, list: &mut [Pair]) -> Answer {
    Answer::of_call(c::call_pairs(store, call.into(), list))
}

/// Makes one call as [`call`] does, from words to words.
///
/// ```
/// use gaffdamson::{call_words, operator, prepare, Answer, CallWords};
///
/// let mut store = [0; 16];
/// prepare(&mut store)?;
/// let create = |n| CallWords { operator: operator::CUN, n, ..CallWords::default() };
/// let answer = call_words(&mut store, create(5), &mut []);
/// assert_eq!(Answer::from_words(answer.into()), Some(Answer::Added { name: 5, count: 1 }));
/// // 65,541 is no name, and not cut to 5: refusal 3.
/// let answer = call_words(&mut store, create(65_536 + 5), &mut []);
/// assert_eq!((answer.kind, answer.first, answer.second), (0, 3, 0));
/// # Ok::<(), gaffdamson::Refusal>(())
/// ```
pub fn call_words(store: &mut [u32], call: CallWords, list: &mut [u32]) -> AnswerWords {
    c::call(store, call, list)
}

/// Makes one call as [`call_pairs`] does, from words to words.
pub fn call_words_pairs(store: &mut [u32], call: CallWords, list: &mut [Pair]) -> AnswerWords {
    c::call_pairs(store, call, list)
}

/// Makes a whole list of calls, one after the other; the buffer is checked
/// once, before the first.
///
/// A call is [`Call::words`], an answer [`Answer::from_words`]. The lists of
/// the calls stand one after the other, each with the length that its call asks
/// for. Refusal 1 where the buffer is not a store, then 9 where the answers or
/// the lists have too little room for all calls; refusals of single calls stand
/// among the answers.
///
/// ```
/// use gaffdamson::{operator, prepare, run, Answer, Call, Node};
///
/// let mut store = [0; 28];
/// prepare(&mut store)?;
/// let create = Call { n: Node(5), ..Call::new(operator::CUN) };
/// let nodes = Call::new(operator::SUN);
/// let calls = [create.words(0), nodes.words(3)];
/// let mut answers = [[0; 3]; 2];
/// let mut lists = [0; 3];
/// run(&mut store, calls.as_flattened(), answers.as_flattened_mut(), &mut lists)?;
/// let expected = [Answer::Added { name: 5, count: 1 }, Answer::List(1)];
/// assert_eq!(answers.map(Answer::from_words), expected.map(Some));
/// assert_eq!(lists, [5, 0, 0]);
/// # Ok::<(), gaffdamson::Refusal>(())
/// ```
pub fn run(
    store: &mut [u32],
    calls: &[u32],
    answers: &mut [u32],
    lists: &mut [u32],
) -> Result<(), Refusal> {
    match c::run(store, calls, answers, lists) {
        0 => Ok(()),
        number => Err(Refusal(number)),
    }
}

#[cfg(test)]
mod tests {
    use super::*;

    #[test]
    fn empty_slices_are_refused() {
        let refusal = Answer::Refusal(Refusal::NOT_A_STORE);
        let spaces = Call::new(operator::SUS);
        assert_eq!(prepare(&mut []), Err(Refusal::NOT_A_STORE));
        assert!(!is_store(&[]));
        assert_eq!(call(&mut [], &spaces, &mut []), refusal);
        assert_eq!(call_pairs(&mut [], &spaces, &mut []), refusal);
        let run = run(&mut [], &[], &mut [], &mut []);
        assert_eq!(run, Err(Refusal::NOT_A_STORE));
    }

    #[test]
    fn a_run_needs_room_for_its_answers_and_lists() {
        let mut store = [0; 10];
        assert_eq!(prepare(&mut store), Ok(1));
        let calls = Call::new(operator::SUS).words(1);
        let mut run_with = |answers, lists| {
            let mut answers = vec![0; answers];
            run(&mut store, &calls, &mut answers, &mut vec![0; lists])
        };
        assert_eq!(run_with(2, 1), Err(Refusal::LIST_TOO_SHORT));
        assert_eq!(run_with(3, 0), Err(Refusal::LIST_TOO_SHORT));
        assert_eq!(run_with(3, 1), Ok(()));
    }
}

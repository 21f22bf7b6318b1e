//! Answer lists that are lent to a store.

pub use gaffdamson_reference::library::LONGEST_LIST;
use gaffdamson_reference::machine::Answer;
use gaffdamson_reference::packed::{self, WORDS_IN_AN_ANSWER};

/// What every place of a list holds before a call.
pub const UNWRITTEN: u32 = 0xdead_beef;

/// The answer with the pairs of its list; the places past them, or all after
/// another answer, must be unwritten.
pub fn answer_of(words: [u32; WORDS_IN_AN_ANSWER], list: &[u32]) -> Answer {
    let answer = packed::answer(words, list).expect("an answer");
    let count = match &answer {
        Answer::List(entries) => entries.len(),
        _ => 0,
    };
    assert!(list[count..].iter().all(|&word| word == UNWRITTEN));
    answer
}

//! Answers, refusals and the entries of lists.

use std::error::Error;
use std::fmt;

use crate::words::{AnswerWords, WORDS_IN_AN_ANSWER};

const REFUSAL: u32 = 0;
const NAME: u32 = 1;
const VALUE: u32 = 2;
const YES_NO: u32 = 3;
const LIST: u32 = 4;
const CAPACITY: u32 = 5;
const ADDED: u32 = 6;
const REMOVED: u32 = 7;

/// The answer to a call.
#[derive(Clone, Copy, PartialEq, Eq, Hash, Debug)]
pub enum Answer {
    /// The call was stopped and has changed nothing.
    Refusal(Refusal),
    /// Of a B operator: the name of a node or a space; UNIVERSE is 0.
    Name(u16),
    /// Of a C operator: the name, and how many tuples were added, in all
    /// spaces together.
    Added {
        /// The name of a node or a space; UNIVERSE is 0.
        name: u16,
        /// How many tuples; 0 where nothing changed.
        count: u32,
    },
    /// Of a D operator: the name, and how many tuples were removed, in all
    /// spaces together.
    Removed {
        /// The name of a node or a space.
        name: u16,
        /// How many tuples; 0 where nothing changed.
        count: u32,
    },
    /// A value; 0 is NIL.
    Value(u32),
    /// Whether what was asked for is there.
    YesNo(bool),
    /// How many entries stand in the first places of the lent list.
    List(usize),
}

impl Answer {
    /// The answer that the three words of [`run`](crate::run) give; none if they
    /// are no answer to a call.
    pub fn from_words([kind, first, second]: [u32; WORDS_IN_AN_ANSWER]) -> Option<Answer> {
        let name = || u16::try_from(first).ok();
        let answer = match (kind, first, second) {
            (REFUSAL, number, 0) => Answer::Refusal(Refusal(number)),
            (NAME, _, 0) => Answer::Name(name()?),
            (ADDED, _, count) => Answer::Added {
                name: name()?,
                count,
            },
            (REMOVED, _, count) => Answer::Removed {
                name: name()?,
                count,
            },
            (VALUE, 0, 0) => Answer::Value(0),
            (VALUE, 1.., 1) => Answer::Value(first),
            (YES_NO, 0, 0) => Answer::YesNo(false),
            (YES_NO, 1, 0) => Answer::YesNo(true),
            (LIST, count, 0) => Answer::List(usize::try_from(count).ok()?),
            _ => return None,
        };
        Some(answer)
    }

    /// The answer to a call, as the C function gives it.
    pub(crate) fn of_call(words: AnswerWords) -> Answer {
        Answer::from_words(words.into()).unwrap_or_else(|| broken(words))
    }
}

/// The answer to preparing, as the C function gives it.
pub(crate) fn of_preparing(words: AnswerWords) -> Result<u32, Refusal> {
    match <[u32; WORDS_IN_AN_ANSWER]>::from(words) {
        [CAPACITY, capacity, 0] => Ok(capacity),
        [REFUSAL, number, 0] => Err(Refusal(number)),
        _ => broken(words),
    }
}

fn broken(words: AnswerWords) -> ! {
    panic!("the library gave {words:?}, which is no answer: is it the right one?")
}

/// The condition that stopped a call.
#[derive(Clone, Copy, PartialEq, Eq, PartialOrd, Ord, Hash, Debug)]
pub struct Refusal(pub u32);

impl Refusal {
    /// The buffer is not a store, or its length is not that of any.
    pub const NOT_A_STORE: Refusal = Refusal(1);
    /// The operator is not 1 to 57.
    pub const NO_OPERATOR: Refusal = Refusal(2);
    /// A name that is read is 0, or in words a number above 65,535.
    pub const NAME_ZERO: Refusal = Refusal(3);
    /// DUS on UNIVERSE.
    pub const DESTROYS_UNIVERSE: Refusal = Refusal(4);
    /// The space is absent.
    pub const NO_SPACE: Refusal = Refusal(5);
    /// The first node is absent from the space; of SUS of a node, from UNIVERSE.
    pub const NO_FIRST_NODE: Refusal = Refusal(6);
    /// The second node is absent from the space.
    pub const NO_SECOND_NODE: Refusal = Refusal(7);
    /// There is no such edge.
    pub const NO_EDGE: Refusal = Refusal(8);
    /// The list is shorter than what is to be listed; of a run: the answers or
    /// the lists have too little room.
    pub const LIST_TOO_SHORT: Refusal = Refusal(9);
    /// The tuples present and those to add exceed the capacity.
    pub const FULL: Refusal = Refusal(10);
    /// VOP, VIP, VUN and CUS to DUS with no selection; tested after
    /// [`NAME_ZERO`](Refusal::NAME_ZERO) and before
    /// [`DESTROYS_UNIVERSE`](Refusal::DESTROYS_UNIVERSE).
    pub const NEEDS_SPACE: Refusal = Refusal(12);
}

impl fmt::Display for Refusal {
    fn fmt(&self, f: &mut fmt::Formatter) -> fmt::Result {
        let condition = match *self {
            Refusal::NOT_A_STORE => "the buffer is not a store",
            Refusal::NO_OPERATOR => "there is no such operator",
            Refusal::NAME_ZERO => "a name is 0",
            Refusal::DESTROYS_UNIVERSE => "UNIVERSE cannot be removed",
            Refusal::NO_SPACE => "the space is absent",
            Refusal::NO_FIRST_NODE => "the first node is absent",
            Refusal::NO_SECOND_NODE => "the second node is absent",
            Refusal::NO_EDGE => "the edge is absent",
            Refusal::LIST_TOO_SHORT => "the list is too short",
            Refusal::FULL => "the store is full",
            Refusal::NEEDS_SPACE => "the operator needs a space",
            Refusal(_) => "unknown",
        };
        write!(f, "refused, {}: {condition}", self.0)
    }
}

impl Error for Refusal {}

/// An entry of a list. Where nodes or spaces are listed the edge is 0, where
/// edges are listed the node is 0.
#[derive(Clone, Copy, PartialEq, Eq, PartialOrd, Ord, Hash, Debug, Default)]
#[repr(C)]
pub struct Pair {
    /// The name of an edge, or 0.
    pub edge: u16,
    /// The name of a node or a space, or 0.
    pub node: u16,
}

impl From<u32> for Pair {
    /// A packed entry, which is edge × 65,536 + node.
    fn from(entry: u32) -> Pair {
        Pair {
            edge: (entry >> 16) as u16,
            node: entry as u16,
        }
    }
}

impl From<Pair> for u32 {
    fn from(pair: Pair) -> u32 {
        u32::from(pair.edge) << 16 | u32::from(pair.node)
    }
}

#[cfg(test)]
mod tests {
    use super::*;

    #[test]
    fn words_that_are_no_answer_give_none() {
        for words in [
            [0, 9, 1],
            [1, 65_536, 0],
            [1, 7, 1],
            [2, 60, 0],
            [2, 60, 2],
            [2, 0, 1],
            [3, 2, 0],
            [3, 1, 1],
            [4, 1, 1],
            [5, 1, 0],
            [6, 65_536, 0],
            [7, 65_536, 0],
            [8, 0, 0],
            [u32::MAX, 0, 0],
        ] {
            assert_eq!(Answer::from_words(words), None, "{words:?}");
        }
    }

    fn words([kind, first, second]: [u32; 3]) -> AnswerWords {
        AnswerWords {
            kind,
            first,
            second,
        }
    }

    #[test]
    fn answers_are_taken_apart() {
        let answers = [
            ([0, 9, 0], Answer::Refusal(Refusal::LIST_TOO_SHORT)),
            ([1, 65_535, 0], Answer::Name(65_535)),
            ([2, u32::MAX, 1], Answer::Value(u32::MAX)),
            ([2, 0, 0], Answer::Value(0)),
            ([3, 0, 0], Answer::YesNo(false)),
            ([3, 1, 0], Answer::YesNo(true)),
            ([4, 2_048, 0], Answer::List(2_048)),
            ([6, 1, 4], Answer::Added { name: 1, count: 4 }),
            ([6, 0, 0], Answer::Added { name: 0, count: 0 }),
            ([7, 9, 40], Answer::Removed { name: 9, count: 40 }),
        ];
        for (given, answer) in answers {
            assert_eq!(Answer::of_call(words(given)), answer);
        }
        assert_eq!(of_preparing(words([5, 2_048, 0])), Ok(2_048));
        assert_eq!(of_preparing(words([0, 1, 0])), Err(Refusal::NOT_A_STORE));
    }

    #[test]
    fn a_packed_entry_is_a_pair() {
        let pair = Pair { edge: 7, node: 2 };
        assert_eq!(Pair::from(7 << 16 | 2), pair);
        assert_eq!(u32::from(pair), 7 << 16 | 2);
    }
}

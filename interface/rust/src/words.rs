//! Calls and answers in words, as the library takes and gives them.

use crate::{Call, Space};

/// How many words a call takes in a list for [`run`](crate::run): those of
/// [`CallWords`], then the length of its list.
pub const WORDS_IN_A_CALL: usize = 9;

/// How many words an answer takes in a list of [`run`](crate::run).
pub const WORDS_IN_AN_ANSWER: usize = 3;

/// The forms of a call's value.
const NIL: u32 = 0;
const NUMBER: u32 = 1;

/// The forms of a call's space.
const UNIVERSE: u32 = 0;
const NUMBERED: u32 = 1;
const NOTHING: u32 = 2;

/// A call in words. Any words are one: a name has 16 bits, and a greater word
/// stands for 0, which is refused where the name is read.
#[derive(Clone, Copy, PartialEq, Eq, Hash, Debug, Default)]
#[repr(C)]
pub struct CallWords {
    /// The operator.
    pub operator: u32,
    /// The first node.
    pub n: u32,
    /// The edge.
    pub g: u32,
    /// The second node.
    pub m: u32,
    /// 0 for NIL, any other number for the value `v`.
    pub value_form: u32,
    /// The value, if there is one.
    pub v: u32,
    /// 0 for UNIVERSE, 2 for no selection, any other number for the space `s`.
    pub space_form: u32,
    /// The number of the space, if it has one.
    pub s: u32,
}

impl From<&Call> for CallWords {
    fn from(call: &Call) -> CallWords {
        let (space_form, s) = match call.space {
            Space::Universe => (UNIVERSE, 0),
            Space::Numbered(s) => (NUMBERED, s.0),
            Space::Nothing => (NOTHING, 0),
        };
        CallWords {
            operator: call.operator,
            n: call.n.0.into(),
            g: call.g.0.into(),
            m: call.m.0.into(),
            value_form: if call.v == 0 { NIL } else { NUMBER },
            v: call.v,
            space_form,
            s: s.into(),
        }
    }
}

/// An answer in words: its kind, and two words that it carries.
/// [`Answer::from_words`](crate::Answer::from_words) reads them.
#[derive(Clone, Copy, PartialEq, Eq, Hash, Debug, Default)]
#[repr(C)]
pub struct AnswerWords {
    /// The kind.
    pub kind: u32,
    /// The first word that it carries.
    pub first: u32,
    /// The second.
    pub second: u32,
}

impl From<AnswerWords> for [u32; WORDS_IN_AN_ANSWER] {
    fn from(words: AnswerWords) -> [u32; WORDS_IN_AN_ANSWER] {
        [words.kind, words.first, words.second]
    }
}

#[cfg(test)]
mod tests {
    use super::*;
    use std::mem::size_of;

    #[test]
    fn the_structs_have_no_gaps() {
        assert_eq!(size_of::<CallWords>(), 4 * (WORDS_IN_A_CALL - 1));
        assert_eq!(size_of::<AnswerWords>(), 4 * WORDS_IN_AN_ANSWER);
    }
}

//! Calls and answers as plain words, as the C functions of the proved store
//! take and give them.

use crate::chained;
use crate::machine::{Answer, Call, Edge, Node, Space, SpaceName, Value, NIL};

/// The fields of a call, a word each: operator, n, g, m, the form of the value,
/// v, the form of the space, s.
pub type Fields = [u32; 8];

/// In a list of calls: those, and then the length of the answer list.
pub const WORDS_IN_A_CALL: usize = 9;

/// The form of the value NIL, where v is not read. Any other number is the form
/// of the value v.
pub const NO_VALUE: u32 = 0;
const VALUE_GIVEN: u32 = 1;

/// The forms of a space: UNIVERSE and no selection, where s is not read. Any
/// other number is the form of the space s.
pub const UNIVERSE: u32 = 0;
const NUMBERED: u32 = 1;
pub const NOTHING: u32 = 2;

/// An answer: its kind, and two words that it carries.
pub type AnswerWords = [u32; WORDS_IN_AN_ANSWER];

pub const WORDS_IN_AN_ANSWER: usize = 3;

const REFUSAL: u32 = 0;
const NAME: u32 = 1;
const VALUE: u32 = 2;
const YES_NO: u32 = 3;
pub const LIST: u32 = 4;
/// 5 is the kind of what preparing answers.
pub const ADDED: u32 = 6;
pub const REMOVED: u32 = 7;

/// The fields of a call.
pub fn fields(call: &Call) -> Fields {
    let (value_form, v) = match call.v {
        NIL => (NO_VALUE, 0),
        v => (VALUE_GIVEN, v),
    };
    let (space_form, s) = match call.space {
        Space::Universe => (UNIVERSE, 0),
        Space::Numbered(s) => (NUMBERED, s.0),
        Space::Nothing => (NOTHING, 0),
    };
    let [n, g, m, s] = [call.n.0, call.g.0, call.m.0, s].map(u32::from);
    [call.operator, n, g, m, value_form, v, space_form, s]
}

/// A call in a list of calls, with its own list length.
pub fn call(call: &Call) -> [u32; WORDS_IN_A_CALL] {
    in_list(&fields(call), call.list_length)
}

/// A call's fields in a list of calls, with this list length.
pub fn in_list(fields: &Fields, list_length: usize) -> [u32; WORDS_IN_A_CALL] {
    let [operator, n, g, m, value_form, v, space_form, s] = *fields;
    let length = list_length as u32;
    [operator, n, g, m, value_form, v, space_form, s, length]
}

/// The call that nine words give.
pub fn call_of(words: &[u32; WORDS_IN_A_CALL]) -> Call {
    let [operator, n, g, m, value_form, v, space_form, s, length] = *words;
    let fields = [operator, n, g, m, value_form, v, space_form, s];
    call_of_fields(&fields, length as usize)
}

/// The call that these fields give, with a list of this length.
pub fn call_of_fields(fields: &Fields, list_length: usize) -> Call {
    let [operator, n, g, m, value_form, v, space_form, s] = *fields;
    Call {
        operator,
        n: Node(name_in(n)),
        g: Edge(name_in(g)),
        m: Node(name_in(m)),
        v: value_of_form(value_form, v),
        space: match space_form {
            UNIVERSE => Space::Universe,
            NOTHING => Space::Nothing,
            _ => Space::Numbered(SpaceName(name_in(s))),
        },
        list_length,
    }
}

/// A word as a name. A number above 65,535 is no name and stands for 0.
fn name_in(word: u32) -> u16 {
    u16::try_from(word).unwrap_or(0)
}

fn value_of_form(form: u32, v: u32) -> Value {
    match form {
        NO_VALUE => NIL,
        _ => v,
    }
}

/// The words of a value: a number has a 1 beside it, NIL a 0.
fn words_of_value(value: Value) -> AnswerWords {
    [VALUE, value, u32::from(value != NIL)]
}

/// An answer of the hand-written store, whose list stands elsewhere.
pub fn words_of(answer: chained::Answer) -> AnswerWords {
    match answer {
        chained::Answer::Refusal(number) => [REFUSAL, number, 0],
        chained::Answer::Name(name) => [NAME, name.into(), 0],
        chained::Answer::Added(name, count) => [ADDED, name.into(), count as u32],
        chained::Answer::Removed(name, count) => [REMOVED, name.into(), count as u32],
        chained::Answer::Value(value) => words_of_value(value),
        chained::Answer::YesNo(is_so) => [YES_NO, is_so.into(), 0],
        chained::Answer::List(count) => [LIST, count as u32, 0],
    }
}

/// An answer of the tuple machine, whose entries go to a list.
pub fn write(answer: &Answer, list: &mut [u32]) -> AnswerWords {
    match answer {
        Answer::Refusal(number) => [REFUSAL, *number, 0],
        Answer::Name(name) => [NAME, u32::from(*name), 0],
        Answer::Added(name, count) => [ADDED, u32::from(*name), *count as u32],
        Answer::Removed(name, count) => [REMOVED, u32::from(*name), *count as u32],
        Answer::Value(value) => words_of_value(*value),
        Answer::YesNo(is_so) => [YES_NO, u32::from(*is_so), 0],
        Answer::List(entries) => {
            for (place, &(edge, node)) in list.iter_mut().zip(entries) {
                *place = u32::from(edge) << 16 | u32::from(node);
            }
            [LIST, entries.len() as u32, 0]
        }
    }
}

/// The answer that three words and the list beside them give; none if they
/// give none.
pub fn answer(words: AnswerWords, list: &[u32]) -> Option<Answer> {
    let [kind, first, second] = words;
    let name = || u16::try_from(first).ok();
    let answer = match (kind, second) {
        (REFUSAL, 0) => Answer::Refusal(first),
        (NAME, 0) => Answer::Name(name()?),
        (ADDED, count) => Answer::Added(name()?, count as usize),
        (REMOVED, count) => Answer::Removed(name()?, count as usize),
        (VALUE, _) if words == words_of_value(first) => Answer::Value(first),
        (YES_NO, 0) if first <= 1 => Answer::YesNo(first == 1),
        (LIST, 0) => {
            let entries = list.get(..first as usize)?;
            let pair = |&entry: &u32| ((entry >> 16) as u16, entry as u16);
            Answer::List(entries.iter().map(pair).collect())
        }
        _ => return None,
    };
    Some(answer)
}

/// How many tuples the answers of a list of calls say were added, and how many
/// were removed.
pub fn changes(answers: &[u32]) -> (u64, u64) {
    let (answers, _) = answers.as_chunks::<WORDS_IN_AN_ANSWER>();
    let sum = |wanted: u32| {
        let of_kind = answers.iter().filter(|[kind, ..]| *kind == wanted);
        of_kind.map(|[.., count]| u64::from(*count)).sum()
    };
    (sum(ADDED), sum(REMOVED))
}

#[cfg(test)]
mod tests {
    use super::*;

    #[test]
    fn a_call_comes_back_from_its_words() {
        for (k, count) in [(20, 2_000), (1_000, 2_000)] {
            for drawn in crate::load::Drawn::new(7, k).take(count) {
                let nothing = Call {
                    space: Space::Nothing,
                    v: NIL,
                    ..drawn
                };
                assert_eq!(call_of(&call(&drawn)), drawn);
                assert_eq!(call_of(&call(&nothing)), nothing);
            }
        }
    }

    #[test]
    fn each_field_has_its_place() {
        let call = call_of(&[4, 1, 2, 3, 1, 60, 1, 9, 7]);
        let expected = Call {
            operator: 4,
            n: Node(1),
            g: Edge(2),
            m: Node(3),
            v: 60,
            space: Space::Numbered(SpaceName(9)),
            list_length: 7,
        };
        assert_eq!(call, expected);
    }

    /// Numbers that are not 0 and 2, some of them one of these in their lower
    /// half.
    const OTHERS: [u32; 8] = [1, 3, 4, 65_535, 65_536, 65_538, 0x8000_0002, u32::MAX];

    #[test]
    fn the_form_says_whether_the_number_is_read() {
        let space = |form| call_of(&[45, 1, 0, 0, 0, 0, form, 9, 0]).space;
        assert_eq!(space(0), Space::Universe);
        assert_eq!(space(2), Space::Nothing);
        let value = |form| call_of(&[46, 1, 0, 0, form, 60, 0, 0, 0]).v;
        assert_eq!(value(0), NIL);
        assert_eq!(value(2), 60);
        for form in OTHERS {
            assert_eq!(space(form), Space::Numbered(SpaceName(9)), "{form}");
            assert_eq!(value(form), 60, "{form}");
        }
    }

    #[test]
    fn a_word_above_65535_is_no_name() {
        for (word, name) in [
            (65_535, 65_535),
            (65_536, 0),
            (65_537, 0),
            (0x8000_0001, 0),
            (u32::MAX, 0),
        ] {
            let call = call_of(&[4, word, word, word, 1, word, 1, word, 0]);
            assert_eq!(
                (call.n, call.g, call.m),
                (Node(name), Edge(name), Node(name))
            );
            assert_eq!(call.space, Space::Numbered(SpaceName(name)));
            assert_eq!(call.v, word);
        }
    }

    #[test]
    fn an_answer_comes_back_from_its_words() {
        let answers = [
            (Answer::Refusal(12), [0, 12, 0]),
            (Answer::Name(7), [1, 7, 0]),
            (Answer::Value(60), [2, 60, 1]),
            (Answer::Value(NIL), [2, 0, 0]),
            (Answer::YesNo(true), [3, 1, 0]),
            (Answer::YesNo(false), [3, 0, 0]),
            (Answer::List(vec![(7, 2)]), [4, 1, 0]),
            (Answer::Added(1, 2), [6, 1, 2]),
            (Answer::Removed(0, 2_047), [7, 0, 2_047]),
        ];
        for (answer, words) in answers {
            let mut list = [0; 1];
            assert_eq!(write(&answer, &mut list), words);
            assert_eq!(super::answer(words, &list), Some(answer));
        }
    }

    #[test]
    fn other_words_are_no_answer() {
        for words in [
            [0, 12, 1],
            [1, 7, 1],
            [1, 65_536, 0],
            [2, 60, 0],
            [2, 60, 2],
            [2, 0, 1],
            [3, 2, 0],
            [3, 1, 1],
            [4, 2, 0],
            [4, 0, 1],
            [5, 9, 0],
            [6, 65_536, 1],
            [8, 0, 0],
        ] {
            assert_eq!(answer(words, &[0]), None, "{words:?}");
        }
    }

    #[test]
    fn only_added_and_removed_count() {
        let answers = [
            [6, 1, 2],
            [1, 5, 0],
            [7, 1, 4],
            [2, 60, 1],
            [4, 3, 0],
            [6, 2, 1],
            [0, 6, 0],
        ];
        assert_eq!(changes(answers.as_flattened()), (3, 4));
    }
}

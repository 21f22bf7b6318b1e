//! The words of a call: some of all those that give the same call.

use crate::machine::{Call, Space, NIL};
use crate::operators::{reads, Argument};
use crate::packed::{self, Fields, NOTHING, NO_VALUE, UNIVERSE};

use super::Draws;

/// Words that are no names. Cut to 16 bits, most are one.
const NO_NAMES: [u32; 10] = [
    65_536,
    65_537,
    65_538,
    65_539,
    65_536 + 9,
    131_071,
    0x7fff_ffff,
    0x8000_0001,
    0xffff_0002,
    u32::MAX,
];

/// Forms of a value or a space that has a number: all but 0 and 2. Cut to 16
/// bits, some are one of these.
const NUMBERED: [u32; 8] = [1, 1, 3, 4, 65_536, 65_538, 0x8000_0002, u32::MAX];

/// Any words.
const ANY: [u32; 8] = [0, 1, 2, 9, 65_535, 65_536, 65_537, u32::MAX];

/// Words that give a call, or one that differs from it in what its operator
/// does not read.
pub fn draw(draws: &mut Draws, call: &Call) -> Fields {
    let mut fields = packed::fields(call);
    let names = [Argument::FirstNode, Argument::Edge, Argument::SecondNode];
    for (place, argument) in (1..).zip(names) {
        let is_open = fields[place] == 0 || !reads(call.operator, argument);
        fields[place] = name(draws, fields[place], is_open);
    }
    (fields[4], fields[5]) = value(draws, call);
    (fields[6], fields[7]) = space(draws, call);
    fields
}

/// The word of a name. Where it is 0, or is not read, once in two times it is
/// no name.
fn name(draws: &mut Draws, word: u32, is_open: bool) -> u32 {
    if is_open && draws.once_in(2) {
        draws.one_of(&NO_NAMES)
    } else {
        word
    }
}

/// The form of the value, and v. Today NIL is the value 0 too.
fn value(draws: &mut Draws, call: &Call) -> (u32, u32) {
    if !reads(call.operator, Argument::Value) {
        return (draws.one_of(&ANY), draws.one_of(&ANY));
    }
    match call.v {
        NIL if draws.once_in(2) => (NO_VALUE, draws.one_of(&ANY)),
        v if draws.once_in(8) => (2, v),
        v => (draws.one_of(&NUMBERED), v),
    }
}

/// The form of the space, and s.
fn space(draws: &mut Draws, call: &Call) -> (u32, u32) {
    match call.space {
        Space::Universe => (UNIVERSE, draws.one_of(&ANY)),
        Space::Nothing => (NOTHING, draws.one_of(&ANY)),
        Space::Numbered(s) => {
            let word = name(draws, s.0.into(), s.0 == 0);
            (draws.one_of(&NUMBERED), word)
        }
    }
}

/// Calls in words, each with one word that could be taken for another: no names,
/// and forms of any number, with UNIVERSE, a space and nothing.
pub fn unusual(operator: u32) -> Vec<Fields> {
    let mut all = Vec::new();
    for space_form in 0..=2 {
        let usual = [operator, 1, 1, 2, 1, 60, space_form, 1];
        for place in 1..usual.len() {
            let others = ANY.iter().chain(&NO_NAMES).chain(&NUMBERED);
            all.extend(others.map(|&word| {
                let mut fields = usual;
                fields[place] = word;
                fields
            }));
        }
    }
    all.sort_unstable();
    all.dedup();
    all
}

#[cfg(test)]
mod tests {
    use super::*;
    use crate::machine::{Machine, Node};
    use crate::random::lists;

    /// Words of every kind come up, and what they give is answered as the call.
    #[test]
    fn drawn_words_give_the_same_answer() {
        let (mut no_names, mut forms) = (0, std::collections::BTreeSet::new());
        for place in 0..100 {
            let mut draws = Draws::new(13, 1, place);
            let run = lists::run(&mut draws, 40, 60);
            let mut machine = Machine::new(40);
            for (call, answer) in run.calls.iter().zip(&run.answers) {
                let fields = draw(&mut draws, call);
                no_names += fields[1..4].iter().filter(|&&name| name > 65_535).count();
                forms.insert((fields[4].min(3), fields[6].min(3)));
                let given = packed::call_of_fields(&fields, call.list_length);
                assert_eq!(&machine.step(&given), answer, "{call:?} {fields:?}");
            }
            assert_eq!(machine, run.machine);
        }
        assert!(no_names > 1_000, "{no_names}");
        assert_eq!(forms.len(), 16, "{forms:?}");
    }

    #[test]
    fn a_name_of_0_is_given_by_no_names_too() {
        let call = Call {
            operator: 45,
            n: Node(0),
            ..crate::load::lists_of_nodes(1)[0]
        };
        let mut draws = Draws::new(13, 2, 0);
        let words: Vec<u32> = (0..60).map(|_| draw(&mut draws, &call)[1]).collect();
        assert!(words.contains(&0));
        assert!(NO_NAMES.iter().filter(|word| words.contains(word)).count() > 6);
    }
}

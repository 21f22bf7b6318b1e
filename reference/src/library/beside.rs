//! One case at a time: what the library does with it, held to what this
//! implementation does. Each check gives what is wrong, if anything.

use std::fmt::Debug;

use super::{Library, OneCall};
use crate::buffer::{self, Contents};
use crate::machine::{Answer, Call, Machine, Space};
use crate::operators;
use crate::packed::{self, AnswerWords, Fields, WORDS_IN_A_CALL};
use crate::random::{lists, words, Draws};

/// The longest list that is lent; no call lists more.
pub const LONGEST_LIST: usize = 2_100;

/// A call whose list can be lent.
pub fn lendable(call: &Call) -> Call {
    Call {
        list_length: call.list_length.min(LONGEST_LIST),
        ..*call
    }
}

/// A call, and the words in which it is asked for.
#[derive(Clone, Copy, Debug)]
pub struct Asked {
    pub call: Call,
    fields: Fields,
}

impl Asked {
    /// A call in any words that give it.
    pub fn draw(draws: &mut Draws, call: &Call) -> Asked {
        Asked {
            call: *call,
            fields: words::draw(draws, call),
        }
    }

    /// The call that words give, with a list of this length.
    pub fn of_words(fields: Fields, list_length: usize) -> Asked {
        Asked {
            call: packed::call_of_fields(&fields, list_length),
            fields,
        }
    }
}

pub type Checked = Result<(), String>;

/// What any buffer must do: the machine with the tuples of a store, or none.
#[derive(Clone)]
pub struct Model(Option<Machine>);

impl Model {
    pub fn of(words: &[u32]) -> Model {
        Model(buffer::contents(words).map(|(tuples, free)| {
            let capacity = tuples.len() + free;
            Machine::with_tuples(capacity, tuples)
        }))
    }

    pub fn is_store(&self) -> bool {
        self.0.is_some()
    }

    /// "1: not a store", or the machine's answer.
    pub fn step(&mut self, call: &Call) -> Answer {
        match &mut self.0 {
            Some(machine) => machine.step(call),
            None => Answer::Refusal(1),
        }
    }

    /// A call with names that are there, or others.
    pub fn any_call(&self, draws: &mut Draws) -> Call {
        match &self.0 {
            Some(machine) => lists::any_call(draws, machine),
            None => lists::any_call(draws, &Machine::new(1)),
        }
    }

    /// What the buffer must hold.
    fn contents(&self) -> Option<Contents> {
        let machine = self.0.as_ref()?;
        Some((machine.tuples().collect(), machine.free_count()))
    }
}

/// A function that makes one call, with its name.
pub type Way = (&'static str, OneCall);

/// The functions that make one call.
pub fn ways(library: &Library) -> [Way; 2] {
    [
        ("gaffdamson_call", library.call),
        ("gaffdamson_call_pairs", library.call_pairs),
    ]
}

/// Prepares a buffer: the same answer, and every word the same.
pub fn preparing(library: &Library, words: &mut [u32]) -> Checked {
    let mut expected = words.to_vec();
    let answer = buffer::prepare(&mut expected);
    let name = "gaffdamson_prepare";
    same(name, "answer", &(library.prepare)(words), &answer)?;
    same_words(name, "the buffer", words, &expected)
}

/// Whether a buffer is a store.
pub fn judging(library: &Library, words: &[u32], model: &Model) -> Checked {
    let answer = (library.is_store)(words);
    same("gaffdamson_is_store", "answer", &answer, &model.is_store())
}

/// Makes a call on a buffer, where it must give this answer and leave this
/// model. Gives the words of the answer.
pub fn one_call(
    (name, way): Way,
    words: &mut [u32],
    Asked { call, fields }: &Asked,
    (expected, after): (&Answer, &Model),
) -> Result<AnswerWords, String> {
    let before = words.to_vec();
    let untouched = unwritten(call.list_length);
    let mut list = untouched.clone();
    let given = way.make(words, fields, &mut list);
    let answer = packed::answer(given, &list);
    if answer.as_ref() != Some(expected) {
        return Err(format!(
            "{name}: answer {given:?}, which is {answer:?}, expected {expected:?}"
        ));
    }
    let k = match expected {
        Answer::List(entries) => entries.len(),
        _ => 0,
    };
    same_words(name, "the list past k", &list[k..], &untouched[k..])?;
    if may_change(call, expected) {
        holds(name, words, &before, after)?;
    } else {
        same_words(name, "the buffer", words, &before)?;
    }
    Ok(given)
}

/// Request 2: "Over any list of calls .. the added less the removed is the
/// tuples at the end less" those at the start, by the words of the answers and
/// the word of each buffer that counts its tuples.
pub fn adds_up(name: &str, answers: &[u32], before: &[u32], after: &[u32]) -> Checked {
    let (added, removed) = packed::changes(answers);
    let [start, end] = [before, after].map(|words| u64::from(words[3]));
    let what = "tuples at the start and added, at the end and removed:";
    same(name, what, &(start + added), &(end + removed))
}

/// "Operators of V, X and S change no word", nor does a refusal or a call on
/// nothing.
fn may_change(call: &Call, answer: &Answer) -> bool {
    operators::writes(call.operator)
        && call.space != Space::Nothing
        && !matches!(answer, Answer::Refusal(_))
}

/// The tuples, the number of free records, and the words past record C.
fn holds(name: &str, words: &[u32], before: &[u32], model: &Model) -> Checked {
    same(name, "state", &buffer::contents(words), &model.contents())?;
    let past = 4 + 6 * words[0] as usize;
    same_words(name, "past record C", &words[past..], &before[past..])
}

/// A list that nothing has been written to: each place differs from the others.
fn unwritten(length: usize) -> Vec<u32> {
    (0..length as u32)
        .map(|place| 0xdead_0000 + place)
        .collect()
}

/// Makes a whole list of calls on a copy of a buffer: with room to spare, and
/// with one word too few.
pub fn whole_list(
    library: &Library,
    draws: &mut Draws,
    words: &[u32],
    model: &Model,
    calls: &[Asked],
) -> Checked {
    let run = Run::new(draws, words, model, calls);
    let (answers, lists) = (run.answers.len(), run.lists.len());
    run.made(library, answers + draws.below(4), lists + draws.below(4))?;
    if answers > 0 {
        run.refused(library, answers - 1, lists)?;
    }
    if lists > 0 {
        run.refused(library, answers, lists - 1)?;
    }
    Ok(())
}

const RUN: &str = "gaffdamson_run";

/// A list of calls on a buffer, and what must come of it.
struct Run<'a> {
    words: &'a [u32],
    calls: Vec<u32>,
    /// The model after all calls.
    after: Model,
    /// The words of answers and of lists after all calls.
    answers: Vec<u32>,
    lists: Vec<u32>,
}

impl Run<'_> {
    fn new<'a>(draws: &mut Draws, words: &'a [u32], model: &Model, calls: &[Asked]) -> Run<'a> {
        let mut after = model.clone();
        let room = calls.iter().map(|asked| asked.call.list_length).sum();
        let mut lists = unwritten(room);
        let mut answers = Vec::new();
        let mut rest = &mut lists[..];
        for Asked { call, .. } in calls {
            let (list, others) = rest.split_at_mut(call.list_length);
            rest = others;
            answers.extend(packed::write(&after.step(call), list));
        }
        let mut packed: Vec<u32> = calls
            .iter()
            .flat_map(|asked| packed::in_list(&asked.fields, asked.call.list_length))
            .collect();
        // Words past the last whole call are not read.
        packed.extend((0..draws.below(WORDS_IN_A_CALL)).map(|_| 45));
        Run {
            words,
            calls: packed,
            after,
            answers,
            lists,
        }
    }

    /// With room for all: 0 and all that is expected, or 1 where the buffer is
    /// not a store.
    fn made(&self, library: &Library, answers: usize, lists: usize) -> Checked {
        if !self.after.is_store() {
            return self.refused(library, answers, lists);
        }
        let mut expected = Room::new(answers, lists);
        expected.answers[..self.answers.len()].copy_from_slice(&self.answers);
        expected.lists[..self.lists.len()].copy_from_slice(&self.lists);
        let words = self.run(library, 0, &expected)?;
        adds_up(RUN, &self.answers, self.words, &words)?;
        holds(RUN, &words, self.words, &self.after)
    }

    /// Without room for all: 9, or 1 where the buffer is not a store; no word
    /// is changed.
    fn refused(&self, library: &Library, answers: usize, lists: usize) -> Checked {
        let number = if self.after.is_store() { 9 } else { 1 };
        let words = self.run(library, number, &Room::new(answers, lists))?;
        same_words(RUN, "the buffer", &words, self.words)
    }

    /// Runs the calls, which must answer this and leave that room; gives the
    /// buffer afterwards.
    fn run(&self, library: &Library, number: u32, expected: &Room) -> Result<Vec<u32>, String> {
        let mut words = self.words.to_vec();
        let mut given = Room::new(expected.answers.len(), expected.lists.len());
        let Room { answers, lists } = &mut given;
        let code = (library.run)(&mut words, &self.calls, answers, lists);
        same(RUN, "answer", &code, &number)?;
        same_words(RUN, "the answers", answers, &expected.answers)?;
        same_words(RUN, "the lists", lists, &expected.lists)?;
        Ok(words)
    }
}

/// What a run writes to.
struct Room {
    answers: Vec<u32>,
    lists: Vec<u32>,
}

impl Room {
    fn new(answers: usize, lists: usize) -> Room {
        Room {
            answers: unwritten(answers),
            lists: unwritten(lists),
        }
    }
}

fn same<T: PartialEq + Debug>(name: &str, what: &str, given: &T, expected: &T) -> Checked {
    if given == expected {
        return Ok(());
    }
    Err(format!("{name}: {what} {given:?}, expected {expected:?}"))
}

fn same_words(name: &str, what: &str, given: &[u32], expected: &[u32]) -> Checked {
    if given == expected {
        return Ok(());
    }
    let differs = |&place: &usize| given.get(place) != expected.get(place);
    let place = (0..).find(differs).unwrap_or(0);
    Err(format!(
        "{name}: {what}: word {place} is {:?}, expected {:?}",
        given.get(place),
        expected.get(place)
    ))
}

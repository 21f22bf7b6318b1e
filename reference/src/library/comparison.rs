//! All cases of a comparison.

use super::beside::{self, lendable, Asked, Checked, Model, LONGEST_LIST};
use super::found::Found;
use super::Library;
use crate::machine::{Answer, Call, Edge, Machine, Node, Space, SpaceName};
use crate::random::{buffers, lists, systematic, words, Draws};
use crate::{buffer, load};

/// What the draws of a seed are for.
const LISTS: u64 = 21;
const BUFFERS: u64 = 22;
const LARGE_BUFFERS: u64 = 23;
const LENGTHS: u64 = 24;
const OPERATORS: u64 = 25;
const SYSTEMATIC: u64 = 26;
const FULL: u64 = 27;
const NOTHING: u64 = 28;
const WORDS: u64 = 29;

/// How many small stores are damaged in every place.
const SYSTEMATIC_STORES: u64 = 100;

/// The longest list of a call that lists nothing.
const SHORT_LIST: usize = 9;

/// One damaged buffer in so many is a large one.
const LARGE_ONCE_IN: u64 = 50;

/// Lengths of buffers: all short ones, those around the longest, and some
/// whose lower half is that of a store.
fn lengths() -> impl Iterator<Item = usize> {
    let great = [20_000, 65_535, 65_536, 65_546, 65_552, 1 << 20];
    (0..=64).chain(12_285..=12_305).chain(great)
}

/// Operator numbers around those where something could change.
fn operators() -> impl Iterator<Item = u32> {
    let bases = [0, 1 << 16, 1 << 31, u32::MAX];
    let steps = [u32::MAX, 0, 1, 2, 45, 50, 51, 56, 57, 58];
    bases
        .into_iter()
        .flat_map(move |base: u32| steps.map(|step| base.wrapping_add(step)))
}

/// Compares so many calls in random lists, so many damaged buffers, and further
/// cases, which do not depend on these numbers.
pub fn compare(library: &Library, calls: usize, buffers: usize, seed: u64) -> Found {
    let mut comparison = Comparison::new(library, seed);
    comparison.lengths();
    comparison.operators();
    comparison.nothing();
    comparison.words();
    comparison.full_store();
    comparison.systematic();
    comparison.lists(calls);
    comparison.buffers(buffers as u64);
    comparison.found
}

struct Comparison<'a> {
    library: &'a Library,
    seed: u64,
    found: Found,
}

impl Comparison<'_> {
    fn new(library: &Library, seed: u64) -> Comparison<'_> {
        Comparison {
            library,
            seed,
            found: Found::default(),
        }
    }

    fn draws(&self, kind: u64, place: u64) -> Draws {
        Draws::new(self.seed, kind, place)
    }

    /// Buffers of all lengths.
    fn lengths(&mut self) {
        for length in lengths() {
            let mut draws = self.draws(LENGTHS, length as u64);
            for words in [
                vec![0; length],
                vec![u32::MAX; length],
                any_words(&mut draws, length),
            ] {
                let checked = self.one_length(&mut draws, words);
                self.found.add(checked, || format!("length {length}"));
            }
        }
    }

    /// A buffer as it is, prepared, after some calls, and with a word more or
    /// less.
    fn one_length(&self, draws: &mut Draws, mut words: Vec<u32>) -> Checked {
        self.any_buffer(draws, &words)?;
        beside::preparing(self.library, &mut words)?;
        self.any_buffer(draws, &words)?;
        let model = Model::of(&words);
        let calls: Vec<Asked> = (0..draws.below(3))
            .map(|_| any_asked(draws, &model))
            .collect();
        beside::whole_list(self.library, draws, &words, &model, &calls)?;
        self.any_buffer(draws, &words[..words.len().saturating_sub(1)])?;
        words.push(0);
        self.any_buffer(draws, &words)
    }

    /// Operator numbers, in UNIVERSE, in a space and in nothing, on a store that
    /// has tuples.
    fn operators(&mut self) {
        let mut draws = self.draws(OPERATORS, 0);
        let words = buffers::after(&mut draws, 100, load::dense(1, 3).take(200));
        let aimed = lendable(&Model::of(&words).any_call(&mut draws));
        let calls = operators().flat_map(|operator| {
            let numbered = Space::Numbered(SpaceName(1));
            [Space::Universe, numbered, Space::Nothing].map(|space| Call {
                operator,
                space,
                ..aimed
            })
        });
        self.calls_on(&mut draws, &words, calls);
    }

    /// Nothing as the space of each operator, with names that are there, absent
    /// or 0 and with lists of no place and of some, on a fresh store of one
    /// record, on one that has tuples and on a full one.
    fn nothing(&mut self) {
        let mut draws = self.draws(NOTHING, 0);
        let stores = [
            buffers::after(&mut draws, 1, []),
            buffers::after(&mut draws, 100, load::dense(1, 3).take(200)),
            buffers::after(&mut draws, 40, load::full_bed().into_iter().take(39)),
        ];
        for words in stores {
            self.calls_on(&mut draws, &words, calls_on_nothing());
        }
    }

    /// Words that are no names, and value and space forms of any number, with
    /// every operator.
    fn words(&mut self) {
        let mut draws = self.draws(WORDS, 0);
        let calls = load::dense(1, 3).take(200).chain(all_valued());
        let words = buffers::after(&mut draws, 100, calls);
        let model = Model::of(&words);
        for operator in 0..=58 {
            for fields in words::unusual(operator) {
                let asked = Asked::of_words(fields, SHORT_LIST);
                let checked = self.each_way(&mut draws, &words, &model, &asked);
                self.found.add(checked, || format!("{asked:?}"));
            }
        }
    }

    /// The longest list, in lists around its length and in longer ones, and any
    /// calls, on a store whose 2,048 records are used.
    fn full_store(&mut self) {
        let mut draws = self.draws(FULL, 0);
        let words = buffers::after(&mut draws, 2_048, load::full_bed());
        let model = Model::of(&words);
        let lengths = (2_046..=2_048).chain([4_095, 4_096, 4_097, 70_000]);
        let longest = lengths.map(|list_length| Call {
            list_length,
            ..load::lists_of_nodes(1)[0]
        });
        let others = (0..200).map(|_| lendable(&model.any_call(&mut draws)));
        let calls: Vec<Call> = longest.chain(others).collect();
        self.calls_on(&mut draws, &words, calls);
    }

    /// Calls of which each is made on the same store.
    fn calls_on(
        &mut self,
        draws: &mut Draws,
        words: &[u32],
        calls: impl IntoIterator<Item = Call>,
    ) {
        let model = Model::of(words);
        for call in calls {
            let asked = Asked::draw(draws, &call);
            let checked = self.one_call(words, &model, &asked);
            self.found.add(checked, || format!("{asked:?}"));
        }
    }

    /// Small stores, damaged in every place.
    fn systematic(&mut self) {
        for place in 1..=SYSTEMATIC_STORES {
            let mut draws = self.draws(SYSTEMATIC, place);
            for words in systematic::draw(&mut draws) {
                let checked = self.any_buffer(&mut draws, &words);
                self.found
                    .add(checked, || format!("made of store {place}, {words:?}"));
            }
        }
    }

    /// Random lists of calls, each by its own number.
    fn lists(&mut self, calls: usize) {
        for place in 1.. {
            let most = calls - self.found.calls;
            if most == 0 {
                return;
            }
            self.one_list(place, most);
        }
    }

    /// A list of calls, up to a number of them, on a fresh store: each call by
    /// each function, then all by one.
    fn one_list(&mut self, place: u64, most: usize) {
        let mut draws = self.draws(LISTS, place);
        let (capacity, calls) = draw_list(&mut draws, place);
        let calls: Vec<Asked> = calls
            .iter()
            .take(most)
            .map(|call| Asked::draw(&mut draws, call))
            .collect();
        self.found.add_list(capacity);
        let name = format!("list {place}, C {capacity}");
        let words = self.fresh_store(&mut draws, capacity, &name);
        if self.each_call(&words, &calls, &name) {
            let model = Model::of(&words);
            let checked = beside::whole_list(self.library, &mut draws, &words, &model, &calls);
            self.found.add(checked, || name);
        }
    }

    /// A fresh store in a buffer that held any words. Where preparing went
    /// wrong the calls are compared all the same.
    fn fresh_store(&mut self, draws: &mut Draws, capacity: usize, name: &str) -> Vec<u32> {
        let past = draws.below(6);
        let mut words = any_words(draws, 4 + 6 * capacity + past);
        let checked = beside::preparing(self.library, &mut words);
        self.found.add(checked, || name.to_string());
        buffer::prepare(&mut words).expect("the length is that of a store");
        words
    }

    /// Calls one after the other, each by each function on a store of its own;
    /// at the end the numbers added and removed must be those of its tuples.
    /// Ends where something differs, and says whether nothing does.
    fn each_call(&mut self, fresh: &[u32], calls: &[Asked], name: &str) -> bool {
        let mut model = Model::of(fresh);
        let mut stores = beside::ways(self.library).map(|way| (way, fresh.to_vec(), Vec::new()));
        let last = calls.len();
        calls.iter().zip(1..).all(|(asked, number)| {
            let expected = model.step(&asked.call);
            let checked = stores.iter_mut().try_for_each(|(way, words, answers)| {
                answers.extend(beside::one_call(*way, words, asked, (&expected, &model))?);
                if number < last {
                    return Ok(());
                }
                beside::adds_up(way.0, answers, fresh, words)
            });
            self.found.add_call(&asked.call, &expected);
            self.found
                .add(checked, || format!("{name}, call {number}, {asked:?}"))
        })
    }

    /// Random damaged buffers.
    fn buffers(&mut self, count: u64) {
        let large = self.large_stores();
        for place in 1..=count {
            let mut draws = self.draws(BUFFERS, place);
            let words = if place % LARGE_ONCE_IN == 0 {
                let mut words = large[draws.below(large.len())].clone();
                buffers::change_large(&mut draws, &mut words);
                words
            } else {
                buffers::draw_damaged(&mut draws)
            };
            self.found.add_buffer(buffer::is_store(&words));
            let checked = self.any_buffer(&mut draws, &words);
            self.found
                .add(checked, || format!("buffer {place}, {}", shown(&words)));
        }
    }

    /// A panel, and a store in which many spaces have the same nodes.
    fn large_stores(&self) -> [Vec<u32>; 2] {
        let mut draws = self.draws(LARGE_BUFFERS, 0);
        [
            buffers::after(&mut draws, 2_048, load::panel()),
            buffers::after(&mut draws, 2_048, load::filling(1, 12).take(4_000)),
        ]
    }

    /// Any buffer: the check, a call by each function, and a run of that call.
    fn any_buffer(&self, draws: &mut Draws, words: &[u32]) -> Checked {
        let model = Model::of(words);
        beside::judging(self.library, words, &model)?;
        let asked = any_asked(draws, &model);
        self.each_way(draws, words, &model, &asked)
            .map_err(|problem| format!("{asked:?}: {problem}"))
    }

    /// A call on copies of a buffer, by each function, and a run of it.
    fn each_way(&self, draws: &mut Draws, words: &[u32], model: &Model, asked: &Asked) -> Checked {
        self.one_call(words, model, asked)?;
        beside::whole_list(self.library, draws, words, model, &[*asked])
    }

    /// A call on a copy of a buffer, by each function that makes one.
    fn one_call(&self, words: &[u32], model: &Model, asked: &Asked) -> Checked {
        let mut after = model.clone();
        let expected = after.step(&asked.call);
        beside::ways(self.library).into_iter().try_for_each(|way| {
            let mut words = words.to_vec();
            beside::one_call(way, &mut words, asked, (&expected, &after))?;
            Ok(())
        })
    }
}

/// A call with names that are there, or others, in any words that give it.
fn any_asked(draws: &mut Draws, model: &Model) -> Asked {
    let call = lendable(&model.any_call(draws));
    Asked::draw(draws, &call)
}

/// Calls that give a value to all that is there with names up to 3, in UNIVERSE
/// and in space 1.
fn all_valued() -> Vec<Call> {
    let mut calls = Vec::new();
    for space in [Space::Universe, Space::Numbered(SpaceName(1))] {
        for names in 0..27 {
            let [n, g, m] = [names / 9, names / 3 % 3, names % 3].map(|name| 1 + name);
            calls.extend([4, 46, 52].map(|operator| Call {
                operator,
                n: Node(n),
                g: Edge(g),
                m: Node(m),
                v: 700 + u32::from(names),
                space,
                list_length: 0,
            }));
        }
    }
    calls
}

/// Calls of all operators, and of the numbers beside them, on nothing.
fn calls_on_nothing() -> Vec<Call> {
    let mut calls = Vec::new();
    for operator in 0..=58 {
        // 1 is there where there are tuples, 9,999 is nowhere.
        for [n, g, m] in [
            [1, 1, 1],
            [1, 1, 2],
            [2, 1, 1],
            [1, 9_999, 2],
            [9_999, 1, 1],
            [1, 1, 9_999],
            [9_999, 9_999, 9_999],
            [0, 1, 1],
            [1, 0, 1],
            [1, 1, 0],
            [0, 0, 0],
        ] {
            calls.extend([0, 3].map(|list_length| Call {
                operator,
                n: Node(n),
                g: Edge(g),
                m: Node(m),
                v: 60,
                space: Space::Nothing,
                list_length,
            }));
        }
    }
    calls
}

fn any_words(draws: &mut Draws, length: usize) -> Vec<u32> {
    (0..length).map(|_| draws.below(1 << 20) as u32).collect()
}

/// A short buffer, or the length of a long one.
fn shown(words: &[u32]) -> String {
    match words.len() {
        0..=200 => format!("{words:?}"),
        length => format!("{length} words"),
    }
}

/// The calls of a list, and its C: mostly few names and a small store, so that
/// things collide; sometimes many tuples.
fn draw_list(draws: &mut Draws, place: u64) -> (usize, Vec<Call>) {
    let (capacity, calls) = if place.is_multiple_of(1_000) {
        let k = 8 + draws.below(8) as u32;
        let first = load::filling(place as u32, k).take(4_000);
        let then = load::dense(place as u32, k).take(400);
        (2_048, first.chain(then).collect())
    } else if place.is_multiple_of(8) {
        let seed = draws.below(1 << 20) as u32;
        let k = 1 + draws.below(30) as u32;
        (
            1 + draws.below(300),
            load::dense(seed, k).take(100).collect(),
        )
    } else {
        let capacity = match draws.below(4) {
            0 | 1 => 1 + draws.below(12),
            2 => 12 + draws.below(50),
            _ => 1 + draws.below(2_048),
        };
        let length = 20 + draws.below(80);
        (capacity, lists::run(draws, capacity, length).calls)
    };
    (capacity, around_k(capacity, &calls))
}

/// The calls, those that list also with lists of lengths around k, the others
/// with short ones.
fn around_k(capacity: usize, calls: &[Call]) -> Vec<Call> {
    let mut machine = Machine::new(capacity);
    let mut all = Vec::new();
    for call in calls {
        let with_length = |list_length| Call {
            list_length,
            ..*call
        };
        if let Answer::List(entries) = machine.step(&with_length(LONGEST_LIST)) {
            let k = entries.len();
            let mut lengths = vec![0, k.saturating_sub(1), k, k + 1];
            lengths.dedup();
            all.push(lendable(call));
            all.extend(lengths.into_iter().map(with_length));
        } else {
            all.push(with_length(call.list_length.min(SHORT_LIST)));
        }
    }
    all
}

#[cfg(test)]
mod tests {
    use super::*;
    use crate::chained::{self, Answer};
    use crate::library::{Judging, OneCall, Preparing, WholeList, HAND_WRITTEN};
    use crate::packed::{AnswerWords, Fields, WORDS_IN_AN_ANSWER, WORDS_IN_A_CALL};

    /// Whether some case fails, of some calls and some buffers.
    fn fails(library: &Library) -> bool {
        let mut comparison = Comparison::new(library, 1);
        let parts: [fn(&mut Comparison); 5] = [
            |comparison| comparison.operators(),
            |comparison| comparison.nothing(),
            |comparison| comparison.words(),
            |comparison| comparison.lists(2_000),
            |comparison| comparison.buffers(300),
        ];
        parts.into_iter().any(|part| {
            part(&mut comparison);
            comparison.found.failed > 0
        })
    }

    #[test]
    fn a_right_library_passes() {
        assert!(!fails(&HAND_WRITTEN));
        let mut comparison = Comparison::new(&HAND_WRITTEN, 2);
        comparison.lengths();
        assert_eq!(comparison.found.failed, 0, "{}", comparison.found);
    }

    #[test]
    fn all_operators_and_refusals_occur() {
        let mut comparison = Comparison::new(&HAND_WRITTEN, 1);
        comparison.lists(12_000);
        let text = comparison.found.to_string();
        let expected = "57 operators answered, refusals 2 3 4 5 6 7 8 9 10 12\n";
        assert!(text.contains(expected), "{text}");
        assert!(comparison.found.added > 2_000, "{text}");
        assert!(comparison.found.removed > 500, "{text}");
    }

    #[test]
    fn each_wrong_preparing_fails() {
        let wrong: [Preparing; 3] = [
            |store| Ok((store.len() as u32 - 4) / 6),
            |store| chained::prepare(store).map(|c| c + 1),
            |store| {
                let answer = chained::prepare(store);
                if let Some(last) = store.last_mut() {
                    *last = 0;
                }
                answer
            },
        ];
        for prepare in wrong {
            let library = Library {
                prepare,
                ..HAND_WRITTEN
            };
            assert!(fails(&library));
        }
    }

    #[test]
    fn each_wrong_check_fails() {
        let wrong: [Judging; 3] = [
            |_| false,
            |_| true,
            |store| chained::is_store(store) || store.first() == Some(&8),
        ];
        for is_store in wrong {
            let library = Library {
                is_store,
                ..HAND_WRITTEN
            };
            assert!(fails(&library));
        }
    }

    /// What is wrong in one way, with calls and answers of its own.
    type WrongCall = fn(&mut [u32], &Call, &mut [u32]) -> Answer;

    /// Calls that are wrong in one way each: the store is not checked, nothing
    /// is written, the operator is cut short, the list is one too short, a place
    /// past k or after a refusal is written, a word of a free record changes
    /// with a refusal, a word past record C changes.
    const WRONG_CALLS: [WrongCall; 8] = [
        |store, call, list| match chained::is_store(store) {
            true => chained::execute(store, call, list),
            false => Answer::Refusal(5),
        },
        |store, call, list| chained::execute(&mut store.to_vec(), call, list),
        |store, call, list| {
            let operator = call.operator % 65_536;
            chained::execute(store, &Call { operator, ..*call }, list)
        },
        |store, call, list| {
            let end = list.len().saturating_sub(1);
            chained::execute(store, call, &mut list[..end])
        },
        |store, call, list| {
            let answer = chained::execute(store, call, list);
            if let Answer::List(k) = answer {
                list[k..].fill(0);
            }
            answer
        },
        |store, call, list| {
            let answer = chained::execute(store, call, list);
            if let (Answer::Refusal(_), Some(first)) = (answer, list.first_mut()) {
                *first = 0;
            }
            answer
        },
        |store, call, list| {
            let answer = chained::execute(store, call, list);
            if let (Answer::Refusal(6), Some(word)) = (answer, store.get_mut(14)) {
                *word ^= 1;
            }
            answer
        },
        |store, call, list| {
            let answer = chained::execute(store, call, list);
            if let (Answer::Added(..), [.., last]) = (answer, store) {
                *last = 0;
            }
            answer
        },
    ];

    /// Each of these calls fails, by words and by pairs.
    fn each_fails(calls: impl IntoIterator<Item = OneCall>) {
        for (place, wrong) in calls.into_iter().enumerate() {
            let by_words = Library {
                call: wrong,
                ..HAND_WRITTEN
            };
            let by_pairs = Library {
                call_pairs: wrong,
                ..HAND_WRITTEN
            };
            assert!(fails(&by_words), "call {place}");
            assert!(fails(&by_pairs), "call_pairs {place}");
        }
    }

    #[test]
    fn each_wrong_call_fails() {
        each_fails(WRONG_CALLS.map(OneCall::Read));
    }

    /// Calls whose number is wrong: it counts one space alone, or what would be
    /// added to a fresh graph, or it is left out, or given by B too, or stands
    /// with the other sign; it is 1 too much where there is no selection.
    const WRONG_NUMBERS: [WrongCall; 7] = [
        |store, call, list| match (chained::execute(store, call, list), call.space) {
            (Answer::Removed(name, 2..), Space::Universe) => Answer::Removed(name, 1),
            (answer, _) => answer,
        },
        |store, call, list| match (chained::execute(store, call, list), call.space) {
            (Answer::Added(name, 2), Space::Numbered(_)) => Answer::Added(name, 1),
            (answer, _) => answer,
        },
        |store, call, list| match (chained::execute(store, call, list), call.operator) {
            (Answer::Added(name, _), 3) => Answer::Added(name, 2),
            (answer, _) => answer,
        },
        |store, call, list| match chained::execute(store, call, list) {
            Answer::Added(name, 0) => Answer::Name(name),
            answer => answer,
        },
        |store, call, list| match chained::execute(store, call, list) {
            Answer::Name(name) => Answer::Added(name, 0),
            answer => answer,
        },
        |store, call, list| match chained::execute(store, call, list) {
            Answer::Removed(name, count) => Answer::Added(name, count),
            answer => answer,
        },
        |store, call, list| match (chained::execute(store, call, list), call.space) {
            (Answer::Removed(name, 0), Space::Nothing) => Answer::Removed(name, 1),
            (answer, _) => answer,
        },
    ];

    #[test]
    fn each_wrong_number_fails() {
        each_fails(WRONG_NUMBERS.map(OneCall::Read));
    }

    /// What is wrong in one way, from words to words.
    type WrongInWords = fn(&mut [u32], &Fields, &mut [u32]) -> AnswerWords;

    fn right(store: &mut [u32], fields: &Fields, list: &mut [u32]) -> AnswerWords {
        HAND_WRITTEN.call.make(store, fields, list)
    }

    /// Calls whose words are wrong: a name is cut to 16 bits, or only a name of
    /// 65,536 is one too many; v is read without a value, or not with the form 2;
    /// the form 3 of a space is UNIVERSE; a form is cut to 16 bits; a name that
    /// is not read is refused; a value carries no 1, or NIL one.
    const WRONG_WORDS: [WrongInWords; 11] = [
        |store, fields, list| right(store, &with(fields, 1, |n| n % 65_536), list),
        |store, fields, list| right(store, &with(fields, 2, |g| g % 65_536), list),
        |store, fields, list| right(store, &with(fields, 3, |m| m.min(65_535)), list),
        |store, fields, list| right(store, &with(fields, 7, |s| s % 65_536), list),
        |store, fields, list| right(store, &with(fields, 4, |form| form.max(1)), list),
        |store, fields, list| right(store, &with(fields, 4, |form| form & !2), list),
        |store, fields, list| right(store, &with(fields, 6, |form| form % 3), list),
        |store, fields, list| right(store, &with(fields, 6, |form| form % 65_536), list),
        |store, fields, list| match fields[3] {
            65_536.. => [0, 3, 0],
            _ => right(store, fields, list),
        },
        |store, fields, list| match right(store, fields, list) {
            [2, value, _] => [2, value, 0],
            words => words,
        },
        |store, fields, list| match right(store, fields, list) {
            [2, value, _] => [2, value, 1],
            words => words,
        },
    ];

    /// The fields with another word in a place.
    fn with(fields: &Fields, place: usize, other: fn(u32) -> u32) -> Fields {
        let mut fields = *fields;
        fields[place] = other(fields[place]);
        fields
    }

    #[test]
    fn each_wrong_word_fails() {
        each_fails(WRONG_WORDS.map(OneCall::InWords));
    }

    /// Calls that are wrong where the space is nothing: it is taken for
    /// UNIVERSE, or for a space that is absent; BUN tests its node, as in an
    /// empty space; a C, B or D operator changes a word; a place of the list is
    /// written; VUN says NIL; CUS is answered; 12 comes before 3.
    const WRONG_ON_NOTHING: [WrongCall; 8] = [
        |store, call, list| on(Space::Universe, store, call, list),
        |store, call, list| on(Space::Numbered(SpaceName(65_000)), store, call, list),
        |store, call, list| match (call.space, call.operator) {
            (Space::Nothing, 46) => Answer::Refusal(6),
            _ => chained::execute(store, call, list),
        },
        |store, call, list| {
            let answer = chained::execute(store, call, list);
            if let (Space::Nothing, Answer::Added(..), [.., last]) = (call.space, answer, store) {
                *last ^= 1;
            }
            answer
        },
        |store, call, list| {
            let answer = chained::execute(store, call, list);
            if let (Space::Nothing, Answer::List(0), [first, ..]) = (call.space, answer, list) {
                *first = 0;
            }
            answer
        },
        |store, call, list| match chained::execute(store, call, list) {
            Answer::Refusal(12) if call.operator == 47 => Answer::Value(0),
            answer => answer,
        },
        |store, call, list| match chained::execute(store, call, list) {
            Answer::Refusal(12) if call.operator == 51 => Answer::Name(0),
            answer => answer,
        },
        |store, call, list| match chained::execute(store, call, list) {
            Answer::Refusal(3) if call.space == Space::Nothing && call.operator == 7 => {
                Answer::Refusal(12)
            }
            answer => answer,
        },
    ];

    /// The call with this space where its space is nothing.
    fn on(other: Space, store: &mut [u32], call: &Call, list: &mut [u32]) -> Answer {
        let space = match call.space {
            Space::Nothing => other,
            space => space,
        };
        chained::execute(store, &Call { space, ..*call }, list)
    }

    #[test]
    fn each_wrong_call_on_nothing_fails() {
        each_fails(WRONG_ON_NOTHING.map(OneCall::Read));
    }

    /// Runs that take the form 2 of a space for a number, and 3 for nothing;
    /// that take the form 2 of a value for NIL; that cut a name to 16 bits.
    #[test]
    fn each_wrong_form_fails() {
        let wrong: [WholeList; 4] = [
            |store, calls, answers, lists| {
                let calls = with_words(calls, 6, |form| if form == 2 { 3 } else { form });
                chained::run(store, &calls, answers, lists)
            },
            |store, calls, answers, lists| {
                let calls = with_words(calls, 6, |form| if form == 3 { 2 } else { form });
                chained::run(store, &calls, answers, lists)
            },
            |store, calls, answers, lists| {
                let calls = with_words(calls, 4, |form| if form == 2 { 0 } else { form });
                chained::run(store, &calls, answers, lists)
            },
            |store, calls, answers, lists| {
                let calls = with_words(calls, 1, |n| n % 65_536);
                chained::run(store, &calls, answers, lists)
            },
        ];
        for run in wrong {
            let library = Library {
                run,
                ..HAND_WRITTEN
            };
            assert!(fails(&library));
        }
    }

    /// The calls with other words in one place of each.
    fn with_words(calls: &[u32], place: usize, other: fn(u32) -> u32) -> Vec<u32> {
        let mut calls = calls.to_vec();
        for call in calls.chunks_exact_mut(WORDS_IN_A_CALL) {
            call[place] = other(call[place]);
        }
        calls
    }

    #[test]
    fn each_wrong_run_fails() {
        let wrong: [WholeList; 5] = [
            |store, calls, answers, lists| {
                let code = chained::run(store, calls, answers, lists);
                for answer in answers.chunks_exact_mut(WORDS_IN_AN_ANSWER) {
                    if answer[0] == 6 && answer[2] > 1 {
                        answer[2] -= 1;
                    }
                }
                code
            },
            |store, calls, answers, lists| match chained::run(store, calls, answers, lists) {
                1 => 9,
                code => code,
            },
            |store, calls, answers, lists| {
                let room = answers.len() / WORDS_IN_AN_ANSWER * WORDS_IN_AN_ANSWER;
                chained::run(store, calls, &mut answers[..room], lists) % 9
            },
            |store, calls, answers, lists| {
                let end = calls.len().saturating_sub(WORDS_IN_A_CALL);
                chained::run(store, &calls[..end], answers, lists)
            },
            |store, calls, answers, lists| {
                let code = chained::run(store, calls, answers, lists);
                if let Some(last) = answers.last_mut() {
                    *last = 0;
                }
                code
            },
        ];
        for run in wrong {
            let library = Library {
                run,
                ..HAND_WRITTEN
            };
            assert!(fails(&library));
        }
    }
}

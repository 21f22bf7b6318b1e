//! A store written by hand over the buffer of document 01, to be fast.
//!
//! It keeps nothing outside the buffer between calls and allocates nothing.
//! Each call walks the used chain as little as the layout allows: see the
//! notes at each part.

mod chain;
mod check;
mod listing;
mod names;
mod pairs;
mod removal;
mod units;

use std::ops::RangeInclusive;

use crate::machine::{Call, Space};
use crate::operators::Direction;
use crate::packed::{self, WORDS_IN_AN_ANSWER, WORDS_IN_A_CALL};
use chain::{Place, Record, Store, G, M, N, S};

pub use check::is_store;

const LENGTHS: RangeInclusive<usize> = 10..=12_297;
const MOST_RECORDS: usize = 2_048;

/// Up to so many used records, a local list is a short one.
const FEW_RECORDS: usize = 128;

/// The answer to a call. The pairs of a list stand in the first places of the
/// lent list, each as edge × 65,536 + node.
#[derive(Clone, Copy, PartialEq, Eq, Debug)]
pub enum Answer {
    Refusal(u32),
    Name(u16),
    /// A name, and how many tuples were added.
    Added(u16, usize),
    /// A name, and how many tuples were removed.
    Removed(u16, usize),
    Value(u32),
    YesNo(bool),
    /// How many pairs are listed.
    List(usize),
}

/// The fields of a call as words, UNIVERSE as 0.
#[derive(Clone, Copy)]
struct Fields {
    operator: u32,
    n: u32,
    g: u32,
    m: u32,
    v: u32,
    s: u32,
}

impl Fields {
    /// The name that C, B and D answer.
    fn first_argument(&self) -> u16 {
        match self.operator {
            51..=55 => self.s as u16,
            _ => self.n as u16,
        }
    }
}

/// Makes a fresh store of a buffer and gives C, or refusal 1.
pub fn prepare(buffer: &mut [u32]) -> Result<u32, u32> {
    if !LENGTHS.contains(&buffer.len()) {
        return Err(1);
    }
    let (head, rest) = buffer.split_first_chunk_mut::<4>().ok_or(1u32)?;
    let (records, _) = rest.as_chunks_mut::<6>();
    let c = records.len() as u32;
    for (record, next) in records.iter_mut().zip(2..) {
        record[chain::NEXT] = next;
    }
    records[records.len() - 1][chain::NEXT] = 0;
    records[0] = [0; 6];
    *head = [c, 1, if c > 1 { 2 } else { 0 }, 1];
    Ok(c)
}

/// Makes a call on any buffer. The list's length is that of the call; a
/// refusal writes nothing.
pub fn execute(buffer: &mut [u32], call: &Call, list: &mut [u32]) -> Answer {
    if is_store(buffer) {
        execute_known(buffer, call, list)
    } else {
        Answer::Refusal(1)
    }
}

/// Makes a call on a buffer that is known to be a store. On any other it may
/// give any answer, or panic.
pub fn execute_known(buffer: &mut [u32], call: &Call, list: &mut [u32]) -> Answer {
    let Some(mut store) = Store::of(buffer) else {
        return Answer::Refusal(1);
    };
    match fields_of(call) {
        Ok(fields) if call.space == Space::Nothing && call.operator <= 50 => on_nothing(&fields),
        Ok(fields) => step(&mut store, &fields, list),
        Err(number) => Answer::Refusal(number),
    }
}

/// The answer of 1 to 50 where there is no selection: the store is not looked
/// at.
fn on_nothing(call: &Fields) -> Answer {
    match call.operator {
        9..=11 | 48 => Answer::YesNo(false),
        30..=44 | 50 => Answer::List(0),
        1..=3 | 45 => Answer::Added(call.first_argument(), 0),
        12..=29 | 49 => Answer::Removed(call.first_argument(), 0),
        _ => Answer::Name(call.first_argument()),
    }
}

/// Checks a store once and makes all calls (`packed` has their form); the
/// lists stand one after the other. Gives 0, or 1 where the buffer is not a
/// store, or 9 where the answers or lists have too little room.
pub fn run(buffer: &mut [u32], calls: &[u32], answers: &mut [u32], lists: &mut [u32]) -> u32 {
    if !is_store(buffer) {
        return 1;
    }
    let (calls, _) = calls.as_chunks::<WORDS_IN_A_CALL>();
    let (answers, _) = answers.as_chunks_mut::<WORDS_IN_AN_ANSWER>();
    let room: u64 = calls.iter().map(|call| u64::from(call[8])).sum();
    if answers.len() < calls.len() || (lists.len() as u64) < room {
        return 9;
    }
    let mut rest = lists;
    for (words, answer) in calls.iter().zip(answers) {
        let call = packed::call_of(words);
        let (list, others) = rest.split_at_mut(call.list_length);
        rest = others;
        *answer = packed::words_of(execute_known(buffer, &call, list));
    }
    0
}

const READS_N: u8 = 1;
const READS_G: u8 = 2;
const READS_M: u8 = 4;
const READS_S: u8 = 8;

/// The names that an operator reads; none for a number that is no operator.
fn names_read(operator: u32) -> Option<u8> {
    let names = match operator {
        1..=14 => READS_N | READS_G | READS_M | READS_S,
        15..=17 | 24..=26 | 30..=35 | 39..=41 => READS_N | READS_S,
        18..=20 | 27..=29 | 42..=44 => READS_N | READS_G | READS_S,
        21..=23 | 36..=38 => READS_N | READS_M | READS_S,
        45..=49 => READS_N | READS_S,
        50..=55 => READS_S,
        56 => 0,
        57 => READS_N,
        _ => return None,
    };
    Some(names)
}

/// The operators that have no answer where there is no selection.
fn needs_space(operator: u32) -> bool {
    matches!(operator, 7 | 8 | 47 | 51..=55)
}

/// The fields of a call that conditions 2, 3, 12 and 4 let pass. Where there
/// is no selection, s has no meaning.
fn fields_of(call: &Call) -> Result<Fields, u32> {
    let names = names_read(call.operator).ok_or(2u32)?;
    let (s, space_is_zero) = match call.space {
        Space::Universe | Space::Nothing => (0, false),
        Space::Numbered(s) => (s.0, s.0 == 0),
    };
    let mark = |name: u8, is_zero: bool| if is_zero { name } else { 0 };
    let zeros = mark(READS_N, call.n.0 == 0)
        | mark(READS_G, call.g.0 == 0)
        | mark(READS_M, call.m.0 == 0)
        | mark(READS_S, space_is_zero);
    if names & zeros != 0 {
        return Err(3);
    }
    if call.space == Space::Nothing && needs_space(call.operator) {
        return Err(12);
    }
    if call.operator == 55 && s == 0 {
        return Err(4);
    }
    Ok(Fields {
        operator: call.operator,
        n: call.n.0.into(),
        g: call.g.0.into(),
        m: call.m.0.into(),
        v: call.v,
        s: s.into(),
    })
}

/// Which edges of n an operator means.
#[derive(Clone, Copy)]
struct Meant {
    n: u32,
    out: bool,
    into: bool,
    /// The edge name, or 0 for any.
    g: u32,
}

impl Meant {
    /// The edges of operators that read no second node.
    fn of(call: &Fields) -> Meant {
        let names = names_read(call.operator).unwrap_or(0);
        let direction = direction(call.operator);
        Meant {
            n: call.n,
            out: direction != Direction::Inpointing,
            into: direction != Direction::Outpointing,
            g: if names & READS_G == 0 { 0 } else { call.g },
        }
    }

    /// Whether a record is one of them. A node or a space has g and m 0.
    #[inline(always)]
    fn takes(&self, record: &Record) -> bool {
        let leaves = self.out && record[N] == self.n && record[G] != 0;
        let comes = self.into && record[M] == self.n;
        (leaves || comes) && (self.g == 0 || record[G] == self.g)
    }

    /// Whether one of them in s may stand at a record of s from n's place on
    /// (where only edges from n are meant) or anywhere.
    #[inline(always)]
    fn may_follow(&self, record: &Record, s: u32) -> bool {
        record[S] == s && (self.into || record[N] == self.n)
    }

    /// Conditions 5 and 6; the place of s, and that of the first of these
    /// edges in s, if there is any. The edges from n stand right after n; for
    /// those to n the walk of the space looks for n too.
    fn first_in(&self, store: &Store, s: u32) -> Result<(Place, Option<Place>), u32> {
        let start = store.space(store.first(), s);
        if !start.is_there {
            return Err(5);
        }
        let from = if self.into {
            start.place
        } else {
            store.node(start.place, s, self.n).place
        };
        let mut has_n = false;
        let first = store.pass(from, |record| {
            has_n |= record[N] == self.n && record[S] == s;
            self.may_follow(record, s) && !self.takes(record)
        });
        let is_there = store
            .at(first)
            .is_some_and(|record| self.may_follow(record, s));
        if is_there || has_n {
            Ok((start.place, is_there.then_some(first)))
        } else {
            Err(6)
        }
    }

    /// Hands on each of these edges in s, from one of them on.
    #[inline(always)]
    fn each_from(&self, store: &Store, first: Place, s: u32, mut take: impl FnMut(&Record)) {
        store.pass(first, |record| {
            if !self.may_follow(record, s) {
                return false;
            }
            if self.takes(record) {
                take(record);
            }
            true
        });
    }

    /// The node of a pair that n has by one of these edges.
    #[inline(always)]
    fn other(&self, record: &Record) -> u32 {
        if record[N] == self.n {
            record[M]
        } else {
            record[N]
        }
    }
}

/// The direction of operators 1 to 44.
fn direction(operator: u32) -> Direction {
    let place = if operator < 9 { operator - 1 } else { operator };
    match place % 3 {
        0 => Direction::Outpointing,
        1 => Direction::Inpointing,
        _ => Direction::Adjacent,
    }
}

/// Conditions 5 to 10 and the step.
fn step(store: &mut Store, call: &Fields, list: &mut [u32]) -> Answer {
    let answered = match call.operator {
        1..=3 => pairs::create(store, call),
        4..=6 => pairs::bind(store, call),
        7..=8 => pairs::value(store, call),
        9..=11 => pairs::exists(store, call),
        12..=14 => counted(store, call, pairs::destroy),
        15..=20 => counted(store, call, removal::edges),
        21..=23 => counted(store, call, removal::edges_between),
        24..=29 => counted(store, call, removal::nodes_of_pairs),
        30..=35 | 39..=44 => listing::pairs(store, call, list),
        36..=38 => listing::edges_between(store, call, list),
        45 => units::create_node(store, call),
        46..=48 => units::node(store, call),
        49 => counted(store, call, removal::node),
        50 => listing::nodes(store, call, list),
        51 => units::create_space(store, call),
        52..=54 => units::space(store, call),
        55 => counted(store, call, removal::space),
        56 => listing::spaces(store, list),
        _ => listing::spaces_of_node(store, call, list),
    };
    answered.unwrap_or_else(Answer::Refusal)
}

/// A removal, with what it has freed: the store counts its used records.
fn counted(
    store: &mut Store,
    call: &Fields,
    remove: fn(&mut Store, &Fields) -> Result<(), u32>,
) -> Result<Answer, u32> {
    let before = store.used();
    remove(store, call)?;
    let count = before - store.used();
    Ok(Answer::Removed(call.first_argument(), count))
}

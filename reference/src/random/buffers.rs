//! Random buffers: stores whose records stand in any order, and damaged ones.

use crate::machine::{Call, Key, Machine, Value};

use super::{lists, Draws};

/// The words of a record after next: s, n, g, m, value.
pub(super) type Fields = [u32; 5];

/// Where the heads and the count of the used records stand.
pub(super) const USED_HEAD: usize = 1;
pub(super) const FREE_HEAD: usize = 2;
pub(super) const USED_COUNT: usize = 3;

/// A buffer. A third are stores, but for what happens to be drawn; in a third
/// the tuples are wrong, in a third some words.
pub fn draw(draws: &mut Draws) -> Vec<u32> {
    let damage = [None, Some(Damage::Tuples), Some(Damage::Words)];
    draw_with(draws, |draws| draws.one_of(&damage))
}

/// A buffer whose tuples are wrong, or some words.
pub fn draw_damaged(draws: &mut Draws) -> Vec<u32> {
    draw_with(draws, |draws| {
        Some(draws.one_of(&[Damage::Tuples, Damage::Words]))
    })
}

/// A store of so many records that has what some calls leave.
pub fn after(
    draws: &mut Draws,
    capacity: usize,
    calls: impl IntoIterator<Item = Call>,
) -> Vec<u32> {
    let mut machine = Machine::new(capacity);
    for call in calls {
        machine.step(&call);
    }
    let tuples: Vec<Fields> = machine.tuples().map(fields).collect();
    lay_out(draws, &tuples, capacity)
}

/// One or two words of a large store are changed, by one or to those of another
/// place.
pub fn change_large(draws: &mut Draws, words: &mut [u32]) {
    for _ in 0..1 + draws.below(2) {
        let place = draws.below(words.len());
        words[place] = match draws.below(4) {
            0 => draws.below(2_100) as u32,
            1 => words[place].wrapping_add(1),
            2 => words[place].wrapping_sub(1),
            _ => words[draws.below(words.len())],
        };
    }
}

#[derive(Clone, Copy, PartialEq)]
enum Damage {
    Tuples,
    Words,
}

fn draw_with(draws: &mut Draws, damage: impl Fn(&mut Draws) -> Option<Damage>) -> Vec<u32> {
    let capacity = if draws.once_in(4) {
        1 + draws.below(5)
    } else {
        6 + draws.below(14)
    };
    let length = capacity + draws.below(16);
    let machine = lists::run(draws, capacity, length).machine;
    let mut tuples: Vec<Fields> = machine.tuples().map(fields).collect();
    let damage = damage(draws);
    if damage == Some(Damage::Tuples) {
        damage_tuples(draws, &mut tuples);
    }
    let capacity = capacity.max(tuples.len());
    let mut words = lay_out(draws, &tuples, capacity);
    if damage == Some(Damage::Words) {
        damage_words(draws, &mut words, capacity);
    }
    words
}

pub(super) fn fields((key, value): (Key, Value)) -> Fields {
    let [s, n, g, m] = [key.s.0, key.n.0, key.g.0, key.m.0].map(u32::from);
    [s, n, g, m, value]
}

/// Any word: most are small, some at the edge of what fits.
fn any_word(draws: &mut Draws, capacity: usize) -> u32 {
    match draws.below(5) {
        0 => draws.one_of(&[65_535, 65_536, u32::MAX]),
        1 => capacity as u32 + draws.below(2) as u32,
        _ => draws.below(capacity + 1) as u32,
    }
}

/// The tuples in records in any order, both chains, any words in the free
/// records and up to five past the last.
pub(super) fn lay_out(draws: &mut Draws, tuples: &[Fields], capacity: usize) -> Vec<u32> {
    let mut order: Vec<usize> = (1..=capacity).collect();
    draws.shuffle(&mut order);
    let (used, free) = order.split_at(tuples.len());
    let past = if draws.once_in(3) { draws.below(6) } else { 0 };
    let mut words: Vec<u32> = (0..4 + 6 * capacity + past)
        .map(|_| any_word(draws, capacity))
        .collect();
    words[0] = capacity as u32;
    words[USED_COUNT] = tuples.len() as u32;
    link(&mut words, USED_HEAD, used);
    link(&mut words, FREE_HEAD, free);
    for (&index, tuple) in used.iter().zip(tuples) {
        let start = next_of(index) + 1;
        words[start..start + 5].copy_from_slice(tuple);
    }
    words
}

/// Where the next of record i stands.
pub(super) fn next_of(index: usize) -> usize {
    4 + 6 * (index - 1)
}

/// Chains records, from the word that heads them.
fn link(words: &mut [u32], head: usize, chain: &[usize]) {
    let mut place = head;
    for &index in chain {
        words[place] = index as u32;
        place = next_of(index);
    }
    words[place] = 0;
}

/// A tuple is missing, moved, doubled, changed or added.
fn damage_tuples(draws: &mut Draws, tuples: &mut Vec<Fields>) {
    let place = draws.below(tuples.len());
    match draws.below(11) {
        0 | 1 => {
            tuples.remove(place);
        }
        2 => tuples.swap(place, place.saturating_sub(1)),
        3 => tuples.insert(place, tuples[place]),
        4 => change_key(draws, &mut tuples[place]),
        5 => {
            change_key(draws, &mut tuples[place]);
            tuples.sort_unstable();
        }
        6 => add(draws, tuples, great_name),
        7 => add(draws, tuples, wrong_form),
        8 => remove_end(draws, tuples),
        9 => leave_spaces(tuples),
        _ => add(draws, tuples, |draws, tuples| {
            let mut added = draws.one_of(tuples);
            change_key(draws, &mut added);
            added
        }),
    }
}

fn add(draws: &mut Draws, tuples: &mut Vec<Fields>, draw: fn(&mut Draws, &[Fields]) -> Fields) {
    tuples.push(draw(draws, tuples));
    tuples.sort_unstable();
}

/// A tuple that is right but for a name that is too great: a space, a node or
/// an edge of UNIVERSE.
fn great_name(draws: &mut Draws, tuples: &[Fields]) -> Fields {
    let great = draws.one_of(&[65_536, u32::MAX]);
    let edge = tuples.iter().find(|tuple| tuple[2] != 0);
    match (draws.below(3), edge) {
        (0, _) => [great, 0, 0, 0, 7],
        (1, Some(&[s, n, _, m, value])) => [s, n, great, m, value],
        _ => [0, great, 0, 0, 7],
    }
}

/// A tuple in UNIVERSE whose key has neither the form of a space, nor of a
/// node, nor of an edge. A node that it names is there, if there is any.
fn wrong_form(draws: &mut Draws, tuples: &[Fields]) -> Fields {
    let node = tuples.iter().find(|tuple| tuple[1] != 0);
    let n = node.map_or(1, |tuple| tuple[1]);
    let g = 1 + draws.below(3) as u32;
    draws.one_of(&[[0, 0, g, n, 7], [0, n, g, 0, 7], [0, n, 0, n, 7]])
}

/// An edge lacks the node tuple of one of its ends.
fn remove_end(draws: &mut Draws, tuples: &mut Vec<Fields>) {
    let edges: Vec<Fields> = tuples.iter().copied().filter(|t| t[2] != 0).collect();
    if !edges.is_empty() {
        let [s, n, _, m, _] = draws.one_of(&edges);
        let end = draws.one_of(&[n, m]);
        tuples.retain(|tuple| tuple[..4] != [s, end, 0, 0]);
    }
}

/// Spaces alone, and UNIVERSE not among them.
fn leave_spaces(tuples: &mut Vec<Fields>) {
    tuples.retain(|tuple| tuple[0] != 0 && tuple[1] == 0);
    if tuples.is_empty() {
        tuples.push([9, 0, 0, 0, 0]);
    }
}

fn change_key(draws: &mut Draws, tuple: &mut Fields) {
    let changed = draws.one_of(&[0, 0, 0, 1, 2, 3, 4, 65_535, 65_536, 65_536, u32::MAX]);
    tuple[draws.below(4)] = changed;
}

/// Wrong words, counts, chains or length.
fn damage_words(draws: &mut Draws, words: &mut Vec<u32>, capacity: usize) {
    match draws.below(9) {
        0 => change_word(draws, words, capacity),
        1 => {
            change_word(draws, words, capacity);
            change_word(draws, words, capacity);
        }
        2 => {
            let place = draws.one_of(&[0, USED_HEAD, FREE_HEAD, USED_COUNT]);
            words[place] = any_word(draws, capacity);
        }
        3 => {
            let place = draws.one_of(&[0, USED_COUNT]);
            words[place] = words[place].wrapping_add(draws.one_of(&[1, u32::MAX]));
        }
        4 => cross(draws, words, capacity),
        5 => close(draws, words, capacity),
        6 => drop_record(draws, words),
        7 => free_all(words, capacity),
        _ => change_length(draws, words),
    }
}

fn change_word(draws: &mut Draws, words: &mut [u32], capacity: usize) {
    let place = draws.below(words.len());
    words[place] = any_word(draws, capacity);
}

/// A head or next of any record.
fn any_link(draws: &mut Draws, capacity: usize) -> usize {
    match draws.below(capacity + 2) {
        0 => USED_HEAD,
        1 => FREE_HEAD,
        place => next_of(place - 1),
    }
}

/// Exchanges two links, or makes one lead where another does.
fn cross(draws: &mut Draws, words: &mut [u32], capacity: usize) {
    let one = any_link(draws, capacity);
    let other = any_link(draws, capacity);
    if draws.once_in(2) {
        words.swap(one, other);
    } else {
        words[one] = words[other];
    }
}

/// The end of a chain leads to some record, or past the last.
fn close(draws: &mut Draws, words: &mut [u32], capacity: usize) {
    let mut place = draws.one_of(&[USED_HEAD, FREE_HEAD]);
    while words[place] != 0 {
        place = next_of(words[place] as usize);
    }
    words[place] = if draws.once_in(3) {
        capacity as u32 + 1
    } else {
        1 + draws.below(capacity) as u32
    };
}

/// Every record is free, and the used chain leads to one past the last.
fn free_all(words: &mut [u32], capacity: usize) {
    let all: Vec<usize> = (1..=capacity).collect();
    link(words, FREE_HEAD, &all);
    words[USED_HEAD] = capacity as u32 + 1;
    words[USED_COUNT] = 1;
}

/// The first record of a chain is in none; the count may follow.
fn drop_record(draws: &mut Draws, words: &mut [u32]) {
    let head = draws.one_of(&[USED_HEAD, FREE_HEAD]);
    if words[head] == 0 {
        return;
    }
    words[head] = words[next_of(words[head] as usize)];
    if head == USED_HEAD && draws.once_in(2) {
        words[USED_COUNT] -= 1;
    }
}

/// The length changes; word 0 may follow.
fn change_length(draws: &mut Draws, words: &mut Vec<u32>) {
    let length = match draws.below(3) {
        0 => draws.below(11),
        1 => words.len().saturating_sub(1 + draws.below(8)),
        _ => words.len() + 1 + draws.below(8),
    };
    words.resize(length, 0);
    if length > 0 && draws.once_in(2) {
        words[0] = (length.saturating_sub(4) / 6) as u32;
    }
}

//! The buffer of records of document 01: what a store is, and preparing one.
//!
//! Every function here takes any buffer at all, store or not.

use std::collections::BTreeSet;
use std::ops::RangeInclusive;

use crate::machine::{Edge, Key, Node, SpaceName, Value, NIL, UNIVERSE};

/// "A store is a buffer of 10 to 12,297 words."
const LENGTHS: RangeInclusive<usize> = 10..=12_297;

/// "Record i, 1 to C, starts at word 4 + 6 × (i − 1)."
const WORDS_BEFORE_RECORDS: usize = 4;
const WORDS_IN_A_RECORD: usize = 6;

/// "For preparing, a length outside 10 to 12,297 words": 1.
const NOT_A_STORE: u32 = 1;

/// A record as it stands in the buffer: "next index, s, n, g, m, value".
#[derive(Clone, Copy)]
struct Record {
    next: u32,
    s: u32,
    n: u32,
    g: u32,
    m: u32,
    value: Value,
}

/// "C = (length − 4) / 6 rounded down"
fn capacity(length: usize) -> usize {
    length.saturating_sub(WORDS_BEFORE_RECORDS) / WORDS_IN_A_RECORD
}

/// The word at which record i, 1 to C, starts.
fn start_of_record(index: usize) -> usize {
    WORDS_BEFORE_RECORDS + WORDS_IN_A_RECORD * (index - 1)
}

/// Record i. The index is 1 to C.
fn record(buffer: &[u32], index: usize) -> Record {
    let start = start_of_record(index);
    Record {
        next: buffer[start],
        s: buffer[start + 1],
        n: buffer[start + 2],
        g: buffer[start + 3],
        m: buffer[start + 4],
        value: buffer[start + 5],
    }
}

/// The tuples of a store, in the order of its used chain, and how many free
/// records it has.
pub type Contents = (Vec<(Key, Value)>, usize);

/// What a store holds; none if the buffer is not a store, by all the rules.
pub fn contents(buffer: &[u32]) -> Option<Contents> {
    let (used, free) = chains(buffer)?;
    let tuples = tuples_of(buffer, &used)?;
    let keys: Vec<Key> = tuples.iter().map(|&(key, _)| key).collect();
    let is_store = used_count_is_right(buffer, used.len())
        && begins_with_universe(&keys)
        && strictly_ascends(&keys)
        && keys.iter().all(has_the_form_of_a_key)
        && nothing_named_is_missing(&keys);
    is_store.then_some((tuples, free.len()))
}

/// Whether a buffer is a store.
pub fn is_store(buffer: &[u32]) -> bool {
    contents(buffer).is_some()
}

/// The tuples of a store, in the order of its used chain. A buffer that is
/// not a store has none.
pub fn tuples(buffer: &[u32]) -> Vec<(Key, Value)> {
    contents(buffer).map_or_else(Vec::new, |(tuples, _)| tuples)
}

/// How many free records a store has: "free records are those of the free
/// chain". A buffer that is not a store has none.
pub fn free_count(buffer: &[u32]) -> usize {
    contents(buffer).map_or(0, |(_, free)| free)
}

/// "Preparing uses record 1 for UNIVERSE, chains 2 to C as free in ascending
/// order and returns C." A length that no store has is refused by 1, and
/// then no word is changed.
pub fn prepare(buffer: &mut [u32]) -> Result<u32, u32> {
    if !LENGTHS.contains(&buffer.len()) {
        return Err(NOT_A_STORE);
    }
    let count = capacity(buffer.len());
    let c = u32::try_from(count).map_err(|_| NOT_A_STORE)?;
    buffer[0] = c;
    buffer[1] = 1;
    buffer[2] = if c > 1 { 2 } else { 0 };
    buffer[3] = 1;
    let first = start_of_record(1);
    buffer[first..first + WORDS_IN_A_RECORD].copy_from_slice(&[0, 0, 0, 0, 0, NIL]);
    for (index, following) in (2..=count).zip(3..) {
        buffer[start_of_record(index)] = if following <= c { following } else { 0 };
    }
    Ok(c)
}

/// The records of the used chain and of the free chain, if "word 0 fits; both
/// heads and every next are at most C; the two chains together meet each
/// record exactly once".
fn chains(buffer: &[u32]) -> Option<(Vec<usize>, Vec<usize>)> {
    if !LENGTHS.contains(&buffer.len()) {
        return None;
    }
    let c = capacity(buffer.len());
    if !is(buffer[0], c) || !links_are_at_most(buffer, c) {
        return None;
    }
    let mut met = vec![false; c];
    let used = walk(buffer, buffer[1], &mut met)?;
    let free = walk(buffer, buffer[2], &mut met)?;
    met.iter().all(|&is_met| is_met).then_some((used, free))
}

/// Whether a word holds this count.
fn is(word: u32, count: usize) -> bool {
    usize::try_from(word) == Ok(count)
}

/// "Both heads and every next are at most C." Every next is that of all
/// records 1 to C.
fn links_are_at_most(buffer: &[u32], c: usize) -> bool {
    let heads = [buffer[1], buffer[2]];
    let nexts = (1..=c).map(|index| record(buffer, index).next);
    heads
        .into_iter()
        .chain(nexts)
        .all(|link| usize::try_from(link).is_ok_and(|link| link <= c))
}

/// Follows a chain from its head and marks each record; "a next of 0 ends a
/// chain". None if a record is met that was met before, or that is past C.
fn walk(buffer: &[u32], head: u32, met: &mut [bool]) -> Option<Vec<usize>> {
    let mut chain = Vec::new();
    let mut link = head;
    while link != 0 {
        let index = usize::try_from(link).ok()?;
        let mark = met.get_mut(index - 1)?;
        if *mark {
            return None;
        }
        *mark = true;
        chain.push(index);
        link = record(buffer, index).next;
    }
    Some(chain)
}

/// The tuples of the used records: "a used record holds the tuple that its
/// key and value give". None unless "key words are at most 65,535".
fn tuples_of(buffer: &[u32], used: &[usize]) -> Option<Vec<(Key, Value)>> {
    used.iter()
        .map(|&index| {
            let record = record(buffer, index);
            Some((key_of(&record)?, record.value))
        })
        .collect()
}

/// The key of a record. None unless "key words are at most 65,535".
fn key_of(record: &Record) -> Option<Key> {
    Some(Key {
        s: SpaceName(u16::try_from(record.s).ok()?),
        n: Node(u16::try_from(record.n).ok()?),
        g: Edge(u16::try_from(record.g).ok()?),
        m: Node(u16::try_from(record.m).ok()?),
    })
}

/// "Word 3 is right": it "counts the used".
fn used_count_is_right(buffer: &[u32], used: usize) -> bool {
    is(buffer[3], used)
}

/// "The first is (0,0,0,0)."
fn begins_with_universe(keys: &[Key]) -> bool {
    keys.first() == Some(&Key::space(UNIVERSE))
}

/// "Used keys strictly ascend, s first."
fn strictly_ascends(keys: &[Key]) -> bool {
    keys.windows(2).all(|two| two[0] < two[1])
}

/// "n = 0 makes g and m 0; g is 0 exactly when m is."
fn has_the_form_of_a_key(key: &Key) -> bool {
    let (n, g, m) = (key.n.0, key.g.0, key.m.0);
    (n != 0 || (g == 0 && m == 0)) && ((g == 0) == (m == 0))
}

/// "Each node tuple has its space and its tuple in 0; each edge tuple has its
/// two node tuples in s and its tuple in 0."
fn nothing_named_is_missing(keys: &[Key]) -> bool {
    let present: BTreeSet<Key> = keys.iter().copied().collect();
    keys.iter().all(|key| {
        let named = if key.is_edge() {
            vec![
                Key::node(key.s, key.n),
                Key::node(key.s, key.m),
                Key::edge(UNIVERSE, key.n, key.g, key.m),
            ]
        } else if key.is_node() {
            vec![Key::space(key.s), Key::node(UNIVERSE, key.n)]
        } else {
            Vec::new()
        };
        named.iter().all(|needed| present.contains(needed))
    })
}

#[cfg(test)]
mod tests {
    use super::*;

    #[test]
    fn the_capacity_is_rounded_down() {
        let lengths = [(10, 1), (15, 1), (16, 2), (12_292, 2_048), (12_297, 2_048)];
        for (length, c) in lengths {
            assert_eq!(capacity(length), c);
        }
    }

    #[test]
    fn the_smallest_buffer_is_prepared() {
        let mut buffer = [7; 10];
        assert_eq!(prepare(&mut buffer), Ok(1));
        assert_eq!(buffer, [1, 1, 0, 1, 0, 0, 0, 0, 0, 0]);
        assert!(is_store(&buffer));
        assert_eq!(free_count(&buffer), 0);
        assert_eq!(tuples(&buffer), [(Key::space(UNIVERSE), NIL)]);
    }

    #[test]
    fn preparing_leaves_what_is_free_to_it() {
        let mut buffer = [7; 24];
        assert_eq!(prepare(&mut buffer), Ok(3));
        assert_eq!(buffer[..4], [3, 1, 2, 1]);
        assert_eq!(buffer[4..10], [0; 6]);
        assert_eq!((buffer[10], buffer[16]), (3, 0));
        assert_eq!(buffer[22..], [7, 7]);
        assert_eq!(free_count(&buffer), 2);
    }

    #[test]
    fn other_lengths_are_refused_and_unchanged() {
        for length in [0, 1, 3, 4, 9, 12_298, 20_000] {
            let mut buffer = vec![7; length];
            assert_eq!(prepare(&mut buffer), Err(1));
            assert!(buffer.iter().all(|&word| word == 7));
            assert!(!is_store(&buffer));
            assert!(tuples(&buffer).is_empty());
            assert_eq!(free_count(&buffer), 0);
        }
    }
}

//! What a store is: each rule kept, and each broken once.

use gaffdamson_reference::buffer::{free_count, is_store, prepare, tuples};
use gaffdamson_reference::machine::{Edge, Key, Node, SpaceName};

/// Words of a record: next, s, n, g, m, value.
type Record = [u32; 6];

fn buffer(heads: [u32; 4], records: &[Record]) -> Vec<u32> {
    let mut words = heads.to_vec();
    words.extend(records.iter().flatten());
    words
}

/// A store with C = 8. Its used chain is 1, 2, 5, 4, 6, 7, 8; 3 is free.
/// UNIVERSE: nodes 1 and 2, edge 1-5-2. Space 9: nodes 1 and 2.
fn good() -> Vec<u32> {
    buffer(
        [8, 1, 3, 7],
        &[
            [2, 0, 0, 0, 0, 70],
            [5, 0, 1, 0, 0, 71],
            [0, 4_000_000_000, 0, 9, 0, 1],
            [6, 0, 2, 0, 0, 73],
            [4, 0, 1, 5, 2, 72],
            [7, 9, 0, 0, 0, 74],
            [8, 9, 1, 0, 0, 75],
            [0, 9, 2, 0, 0, 76],
        ],
    )
}

/// The place of a word of record i.
fn place(record: usize, word: usize) -> usize {
    4 + 6 * (record - 1) + word
}

/// The good store with some words changed.
fn changed(changes: &[(usize, u32)]) -> Vec<u32> {
    let mut words = good();
    for &(place, word) in changes {
        words[place] = word;
    }
    words
}

fn assert_no_store(words: &[u32]) {
    assert!(!is_store(words), "{words:?}");
    assert!(tuples(words).is_empty());
    assert_eq!(free_count(words), 0);
}

#[test]
fn the_good_store_is_one() {
    assert!(is_store(&good()));
    assert_eq!(free_count(&good()), 1);
    let key = |s, n, g, m| Key::edge(SpaceName(s), Node(n), Edge(g), Node(m));
    let expected = [
        (key(0, 0, 0, 0), 70),
        (key(0, 1, 0, 0), 71),
        (key(0, 1, 5, 2), 72),
        (key(0, 2, 0, 0), 73),
        (key(9, 0, 0, 0), 74),
        (key(9, 1, 0, 0), 75),
        (key(9, 2, 0, 0), 76),
    ];
    assert_eq!(tuples(&good()), expected);
}

#[test]
fn a_fresh_store_of_every_length_is_one() {
    for length in 10..=12_297usize {
        let is_sampled = length < 200 || length % 97 == 0 || length > 12_280;
        if !is_sampled {
            continue;
        }
        let mut words = vec![0xdead_beef; length];
        let c = (length - 4) / 6;
        assert_eq!(prepare(&mut words), Ok(c as u32));
        assert!(is_store(&words), "length {length}");
        assert_eq!(tuples(&words).len(), 1);
        assert_eq!(free_count(&words), c - 1);
        let past = &words[4 + 6 * c..];
        assert!(past.iter().all(|&word| word == 0xdead_beef));
    }
}

#[test]
fn preparing_twice_gives_the_same_chains() {
    let mut words = good();
    assert_eq!(prepare(&mut words), Ok(8));
    assert!(is_store(&words));
    assert_eq!(tuples(&words).len(), 1);
    let nexts: Vec<u32> = (1..=8).map(|record| words[place(record, 0)]).collect();
    assert_eq!(nexts, [0, 3, 4, 5, 6, 7, 8, 0]);
}

#[test]
fn lengths_outside_the_range_are_no_stores() {
    for length in [0, 1, 2, 3, 4, 5, 9, 12_298, 12_299, 13_000] {
        assert_no_store(&vec![0; length]);
        assert_eq!(prepare(&mut vec![0; length]), Err(1));
    }
    // A length of 12,298 would give the same C.
    let mut words = vec![0; 12_297];
    assert_eq!(prepare(&mut words), Ok(2048));
    words.push(0);
    assert_no_store(&words);
}

#[test]
fn words_past_the_last_record_have_no_part() {
    let mut words = good();
    for _ in 0..5 {
        words.push(u32::MAX);
        assert!(is_store(&words));
    }
    // One word more makes room for a ninth record.
    words.push(0);
    assert_no_store(&words);
}

#[test]
fn word_0_must_fit() {
    for word in [0, 7, 9, 2048, u32::MAX] {
        assert_no_store(&changed(&[(0, word)]));
    }
    // Shorter by one word, C would be 7.
    let words = good();
    assert_no_store(&words[..words.len() - 1]);
}

#[test]
fn heads_and_nexts_are_at_most_c() {
    for word in [9, 10, 65_536, 0x8000_0000, u32::MAX] {
        assert_no_store(&changed(&[(1, word)]));
        assert_no_store(&changed(&[(2, word)]));
        for record in 1..=8 {
            assert_no_store(&changed(&[(place(record, 0), word)]));
        }
    }
}

#[test]
fn every_record_is_met() {
    // Record 3 is on no chain.
    assert_no_store(&changed(&[(2, 0)]));
    // The used chain ends early.
    assert_no_store(&changed(&[(place(7, 0), 0), (3, 6)]));
    // No used chain at all.
    assert_no_store(&changed(&[(1, 0), (3, 0)]));
}

#[test]
fn cycles_are_no_chains() {
    // The free record is its own next.
    assert_no_store(&changed(&[(place(3, 0), 3)]));
    // The used chain comes back to its first, its last, its middle.
    assert_no_store(&changed(&[(place(8, 0), 1)]));
    assert_no_store(&changed(&[(place(8, 0), 8)]));
    assert_no_store(&changed(&[(place(8, 0), 5)]));
    // A cycle with the right count.
    assert_no_store(&changed(&[(place(7, 0), 1), (3, 7)]));
}

#[test]
fn crossed_chains_and_records_on_both() {
    // The free chain runs into the used chain.
    assert_no_store(&changed(&[(place(3, 0), 8)]));
    // The used chain runs into the free chain.
    assert_no_store(&changed(&[(place(8, 0), 3)]));
    // Both heads are the same.
    assert_no_store(&changed(&[(2, 1)]));
    assert_no_store(&changed(&[(1, 3)]));
    // The heads are exchanged.
    assert_no_store(&changed(&[(1, 3), (2, 1), (3, 1)]));
}

#[test]
fn word_3_counts_the_used() {
    for word in [0, 1, 6, 8, u32::MAX] {
        assert_no_store(&changed(&[(3, word)]));
    }
}

#[test]
fn used_keys_strictly_ascend() {
    // 1-5-2 and node 2 exchanged.
    assert_no_store(&changed(&[
        (place(2, 0), 4),
        (place(4, 0), 5),
        (place(5, 0), 6),
    ]));
    // Node 1 of space 9 twice.
    assert_no_store(&changed(&[(place(8, 2), 1)]));
    // Node 2 before node 1 in space 9.
    assert_no_store(&changed(&[(place(7, 2), 2), (place(8, 2), 1)]));
    // The space after its nodes.
    assert_no_store(&changed(&[
        (place(4, 0), 7),
        (place(8, 0), 6),
        (place(6, 0), 0),
    ]));
}

#[test]
fn the_first_is_universe() {
    // Space 1 in place of UNIVERSE.
    assert_no_store(&buffer([1, 1, 0, 1], &[[0, 1, 0, 0, 0, 0]]));
    assert_no_store(&buffer([1, 1, 0, 1], &[[0, 0, 1, 0, 0, 0]]));
    assert_no_store(&buffer([1, 0, 1, 0], &[[0, 0, 0, 0, 0, 0]]));
    assert!(is_store(&buffer([1, 1, 0, 1], &[[0, 0, 0, 0, 0, 9]])));
}

#[test]
fn key_words_are_at_most_65535() {
    // Space 9 becomes 65,536 or 65,545, which is 9 in 16 bits.
    for space in [65_536, 65_545, u32::MAX] {
        let changes = [
            (place(6, 1), space),
            (place(7, 1), space),
            (place(8, 1), space),
        ];
        assert_no_store(&changed(&changes));
    }
    let changes = [
        (place(6, 1), 65_535),
        (place(7, 1), 65_535),
        (place(8, 1), 65_535),
    ];
    assert!(is_store(&changed(&changes)));
    // Node 2 becomes 65,536 or 65,538.
    for node in [65_536, 65_538, u32::MAX] {
        let changes = [
            (place(4, 2), node),
            (place(5, 4), node),
            (place(8, 2), node),
        ];
        assert_no_store(&changed(&changes));
    }
    let changes = [
        (place(4, 2), 65_535),
        (place(5, 4), 65_535),
        (place(8, 2), 65_535),
    ];
    assert!(is_store(&changed(&changes)));
    assert_no_store(&changed(&[(place(5, 3), 65_536)]));
    assert!(is_store(&changed(&[(place(5, 3), 65_535)])));
}

#[test]
fn values_are_any_words() {
    for record in 1..=8 {
        assert!(is_store(&changed(&[(place(record, 5), u32::MAX)])));
        assert!(is_store(&changed(&[(place(record, 5), 0)])));
    }
}

#[test]
fn of_a_free_record_only_next_counts() {
    let changes: Vec<_> = (1..=5).map(|word| (place(3, word), u32::MAX)).collect();
    assert!(is_store(&changed(&changes)));
}

#[test]
fn a_space_has_neither_edge_nor_second_node() {
    assert_no_store(&changed(&[(place(6, 3), 5), (place(6, 4), 1)]));
    assert_no_store(&changed(&[(place(6, 3), 5)]));
    assert_no_store(&changed(&[(place(6, 4), 1)]));
    assert_no_store(&changed(&[(place(1, 4), 1)]));
    // A space without nodes, so that no other rule is broken.
    let heads = [2, 1, 0, 2];
    let universe = [2, 0, 0, 0, 0, 0];
    assert!(is_store(&buffer(heads, &[universe, [0, 9, 0, 0, 0, 0]])));
    assert_no_store(&buffer(heads, &[universe, [0, 9, 0, 5, 1, 0]]));
    assert_no_store(&buffer(heads, &[universe, [0, 0, 0, 5, 1, 0]]));
}

#[test]
fn the_edge_is_0_exactly_when_the_second_node_is() {
    assert_no_store(&changed(&[(place(5, 3), 0)]));
    assert_no_store(&changed(&[(place(5, 4), 0)]));
    assert_no_store(&changed(&[(place(8, 3), 5)]));
    assert_no_store(&changed(&[(place(8, 4), 2)]));
}

#[test]
fn a_node_has_its_space() {
    // Nodes 1 and 2 of space 9 move to space 10, which is absent.
    assert_no_store(&changed(&[(place(7, 1), 10), (place(8, 1), 10)]));
}

#[test]
fn a_node_has_its_tuple_in_universe() {
    assert_no_store(&changed(&[(place(8, 2), 3)]));
}

#[test]
fn an_edge_has_its_first_node() {
    // The edge is 3-5-2, after node 2.
    let exchange = [(place(2, 0), 4), (place(4, 0), 5), (place(5, 0), 6)];
    let mut changes = exchange.to_vec();
    changes.push((place(5, 2), 3));
    assert_no_store(&changed(&changes));
    // With 2-5-1 it is a store.
    let mut changes = exchange.to_vec();
    changes.extend([(place(5, 2), 2), (place(5, 4), 1)]);
    assert!(is_store(&changed(&changes)));
}

#[test]
fn an_edge_has_its_second_node() {
    assert_no_store(&changed(&[(place(5, 4), 3)]));
    assert!(is_store(&changed(&[(place(5, 4), 1)])));
}

/// Nodes 1 and 2 in UNIVERSE and in space 9, edge 1-5-2 in both.
fn edge_in_both() -> Vec<Record> {
    vec![
        [2, 0, 0, 0, 0, 0],
        [3, 0, 1, 0, 0, 0],
        [4, 0, 1, 5, 2, 0],
        [5, 0, 2, 0, 0, 0],
        [6, 9, 0, 0, 0, 0],
        [7, 9, 1, 0, 0, 0],
        [8, 9, 1, 5, 2, 0],
        [0, 9, 2, 0, 0, 0],
    ]
}

#[test]
fn an_edge_has_its_tuple_in_universe() {
    let heads = [8, 1, 0, 8];
    assert!(is_store(&buffer(heads, &edge_in_both())));
    let mut other = edge_in_both();
    other[2][3] = 6;
    assert_no_store(&buffer(heads, &other));
}

#[test]
fn an_edge_has_both_nodes_in_its_own_space() {
    // Space 9 lacks node 2, then node 1, though UNIVERSE has both.
    let heads = [7, 1, 0, 7];
    let mut without_second = edge_in_both();
    without_second.pop();
    without_second[6][0] = 0;
    assert_no_store(&buffer(heads, &without_second));
    let mut without_first = edge_in_both();
    without_first.remove(5);
    without_first[4][0] = 6;
    without_first[5][0] = 7;
    assert_no_store(&buffer(heads, &without_first));
}

#[test]
fn any_words_are_judged_without_harm() {
    let mut state = 1u32;
    let mut draw = || {
        state = state.wrapping_mul(1_664_525).wrapping_add(1_013_904_223);
        state >> 16
    };
    for round in 0..20_000 {
        let mut words = good();
        for _ in 0..=round % 4 {
            let place = draw() as usize % words.len();
            words[place] = match draw() % 3 {
                0 => draw() % 10,
                1 => u32::MAX - draw() % 3,
                _ => draw(),
            };
        }
        let length = words.len() - draw() as usize % 3 * 7;
        words.truncate(length);
        let count = tuples(&words).len() + free_count(&words);
        assert_eq!(
            count,
            if is_store(&words) {
                words[0] as usize
            } else {
                0
            }
        );
    }
}

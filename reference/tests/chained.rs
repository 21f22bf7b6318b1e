//! The hand-written store gives the answers and the tuples of the second
//! implementation.

mod common;

use common::compared::Compared;
use gaffdamson_reference::load::{self, Drawn};
use gaffdamson_reference::machine::{Answer, Call};
use gaffdamson_reference::random::{buffers, lists, Draws};
use gaffdamson_reference::{buffer, chained, raw};

#[test]
fn preparing_writes_the_same_words() {
    for length in (0..300).chain(12_280..12_310) {
        let mut words = vec![0xdead_beef; length];
        let mut expected = words.clone();
        assert_eq!(chained::prepare(&mut words), buffer::prepare(&mut expected));
        // UNIVERSE's record, the links and nothing else.
        assert_eq!(words, expected, "length {length}");
    }
}

/// Small names, every C from 1, lists of every length around k.
#[test]
fn random_lists_of_calls_are_answered_alike() {
    for place in 0..250 {
        let mut draws = Draws::new(11, 3, place);
        let capacity = match place % 3 {
            0 => 1 + draws.below(12),
            1 => 12 + draws.below(50),
            _ => 1 + draws.below(2_048),
        };
        let length = 20 + draws.below(80);
        let run = lists::run(&mut draws, capacity, length);
        let mut compared = Compared::new(capacity, place as usize % 6);
        for call in &run.calls {
            compared.step_around_k(call);
            compared.check_state();
        }
    }
}

/// The generator of request 11, on stores that get full and on long ones.
#[test]
fn drawn_calls_are_answered_alike() {
    let loads = [
        (1, 5),
        (2, 12),
        (3, 40),
        (4, 2_048),
        (7, 100),
        (20, 2_048),
        (200, 2_048),
    ];
    for (k, capacity) in loads {
        let mut compared = Compared::new(capacity, 1);
        for (place, call) in Drawn::new(k, k).take(1_500).enumerate() {
            compared.step_around_k(&call);
            if place % 10 == 0 {
                compared.check_state();
            }
        }
    }
}

/// Creates drawn more often, so that the store fills.
#[test]
fn a_dense_graph_is_answered_alike() {
    let mut compared = Compared::new(600, 0);
    let mut most = 0;
    for (place, call) in load::dense(5, 6).take(4_000).enumerate() {
        compared.step_around_k(&call);
        if place % 10 == 0 {
            compared.check_state();
        }
        most = most.max(compared.machine.tuples().count());
    }
    assert!(most > 150, "{most}");
}

/// Every operator answers, and every refusal from 2 to 10, and 12, comes up.
#[test]
fn the_lists_of_calls_reach_every_answer() {
    let mut refusals = std::collections::BTreeSet::new();
    let mut answered = std::collections::BTreeSet::new();
    for place in 0..400 {
        let run = lists::run(&mut Draws::new(11, 3, place), 1 + place as usize % 30, 60);
        for (call, answer) in run.calls.iter().zip(&run.answers) {
            match answer {
                Answer::Refusal(number) => refusals.insert(*number),
                _ => answered.insert(call.operator),
            };
        }
    }
    assert!(refusals.into_iter().eq((2..=10).chain([12])));
    assert!(answered.into_iter().eq(1..=57));
}

/// The loops of one node in so many edges that the store is full.
#[test]
fn a_node_with_loops_alone() {
    let mut compared = Compared::new(2_048, 0);
    let mut calls = load::full_bed();
    calls.truncate(1);
    let node = calls[0];
    let loops = (1..=2_046).map(|g| Call {
        operator: 1,
        g: gaffdamson_reference::machine::Edge(g),
        m: node.n,
        ..node
    });
    calls.extend(loops);
    for call in &calls {
        compared.machine.step(call);
        chained::execute_known(&mut compared.words, call, &mut []);
    }
    compared.check_state();
    for operator in (30..=44).chain([3, 45, 50, 56, 57]) {
        let m = node.n;
        compared.step_around_k(&Call {
            operator,
            m,
            ..calls[9]
        });
    }
    for operator in [14, 20, 22, 26] {
        compared.step(&Call {
            operator,
            m: node.n,
            ..calls[9]
        });
        compared.check_state();
    }
}

#[test]
fn buffers_are_judged_alike() {
    let mut stores = 0;
    for place in 0..15_000 {
        let mut words = buffers::draw(&mut Draws::new(11, 4, place));
        let is_store = buffer::is_store(&words);
        assert_eq!(chained::is_store(&words), is_store, "{words:?}");
        stores += u32::from(is_store);
        if !is_store {
            let before = words.clone();
            let call = load::lists_of_nodes(1)[0];
            let answer = chained::execute(&mut words, &call, &mut []);
            assert_eq!(answer, chained::Answer::Refusal(1));
            assert_eq!(words, before);
        }
    }
    assert!((2_000..13_000).contains(&stores), "{stores}");
}

#[test]
fn damaged_panels_are_judged_alike() {
    let mut draws = Draws::new(11, 5, 0);
    let panel = buffers::after(&mut draws, 2_048, load::panel());
    assert!(buffer::is_store(&panel));
    let mut stores = 0;
    for _ in 0..1_500 {
        let mut words = panel.clone();
        buffers::change_large(&mut draws, &mut words);
        let is_store = buffer::is_store(&words);
        assert_eq!(chained::is_store(&words), is_store);
        stores += u32::from(is_store);
    }
    assert!((100..1_400).contains(&stores), "{stores}");
}

/// A store without the tuple that follows a record of its used chain, which
/// is free then; none at the end of the chain.
fn without_next(words: &[u32], record: u32) -> Option<(Vec<u32>, u32)> {
    let link_of = |record: u32| 6 * record as usize - 2;
    let mut words = words.to_vec();
    let next = words[link_of(record)];
    if next == 0 {
        return None;
    }
    words[link_of(record)] = words[link_of(next)];
    words[link_of(next)] = words[2];
    words[2] = next;
    words[3] -= 1;
    Some((words, next))
}

/// Three nodes in three spaces, some pairs of them with an edge.
fn woven(draws: &mut Draws) -> Vec<Call> {
    let mut calls = Vec::new();
    for s in 1..=3 {
        let names = [1, 2, 3].map(|n| format!("45 {n} 0 0 0 {s} 0"));
        calls.push(format!("51 0 0 0 0 {s} 0"));
        calls.extend(names);
        for _ in 0..6 {
            let [n, m] = [(); 2].map(|()| 1 + draws.below(3));
            calls.push(format!("1 {n} 5 {m} 0 {s} 0"));
        }
    }
    let read = |line: &String| raw::read_call(line).expect("readable");
    calls.iter().map(read).collect()
}

/// Each tuple but UNIVERSE is taken out in turn: what others name is missing.
#[test]
fn stores_that_lack_a_tuple_are_judged_alike() {
    let (mut stores, mut others) = (0, 0);
    for place in 0..300 {
        let mut draws = Draws::new(11, 8, place);
        let mut compared = Compared::new(60, 0);
        for call in woven(&mut draws) {
            compared.step(&call);
        }
        let mut record = compared.words[1];
        while let Some((words, next)) = without_next(&compared.words, record) {
            let is_store = buffer::is_store(&words);
            assert_eq!(chained::is_store(&words), is_store, "{words:?}");
            if is_store {
                stores += 1;
            } else {
                others += 1;
            }
            record = next;
        }
    }
    assert!(stores > 500 && others > 500, "{stores} and {others}");
}

//! Request 1: nothing as the space of a call, `-` in a script.

mod common;

use common::compared::Compared;
use common::{check, check_after, check_with, printed};
use gaffdamson_reference::load;
use gaffdamson_reference::machine::{Answer, Call, Edge, Machine, Node, Space, SpaceName};
use gaffdamson_reference::operators::{kind, reads, Argument, Kind};
use gaffdamson_reference::random::{lists, Draws};
use gaffdamson_reference::{buffer, chained, packed, raw, script};

/// Nodes 1 to 3, the spaces 8 (empty) and 9 (nodes 1 and 2), edges 5 both ways
/// between 1 and 2 in UNIVERSE and in 9, a loop 6 on 1; a value everywhere.
const GRAPH: [&str; 16] = [
    "CUS 8",
    "CUS 9",
    "CUN 1 9",
    "CUN 2 9",
    "CUN 3",
    "CAP 1 5 2 9",
    "COP 1 6 1",
    "BUS U 100",
    "BUS 8 80",
    "BUS 9 90",
    "BUN 1 11",
    "BUN 2 12",
    "BUN 1 91 9",
    "BOP 1 5 2 60",
    "BOP 1 5 2 69 9",
    "BOP 1 6 1 61",
];

/// A call on nothing with these names and this list length.
fn call([n, g, m]: [u16; 3], operator: u32, list_length: usize) -> Call {
    Call {
        operator,
        n: Node(n),
        g: Edge(g),
        m: Node(m),
        v: 7,
        space: Space::Nothing,
        list_length,
    }
}

/// The graph on a machine and a store of so many records.
fn on_graph(capacity: usize) -> Compared {
    let mut compared = Compared::new(capacity, 3);
    for line in GRAPH {
        let call = script::read_call(line.as_bytes(), 0).expect("readable");
        let is_refused = matches!(compared.step(&call), Answer::Refusal(_));
        assert!(!is_refused, "{line}");
    }
    compared
}

/// How many tuples the graph has.
const TUPLES: usize = 13;

/// What an operator from 1 to 50 answers on nothing; V is refused.
fn expected(operator: u32, n: u16) -> Answer {
    match kind(operator) {
        Some(Kind::Create) => Answer::Added(n, 0),
        Some(Kind::Bind) => Answer::Name(n),
        Some(Kind::Destroy) => Answer::Removed(n, 0),
        Some(Kind::Exists) => Answer::YesNo(false),
        Some(Kind::SetOf) => Answer::List(Vec::new()),
        _ => Answer::Refusal(12),
    }
}

fn is_value_operator(operator: u32) -> bool {
    matches!(operator, 7 | 8 | 47 | 53)
}

/// The operators that are refused 12.
fn refused() -> impl Iterator<Item = u32> {
    [7, 8, 47].into_iter().chain(51..=55)
}

/// Makes a call on the machine and on the hand-written store, which must give
/// this answer and leave each tuple and each word.
fn check_call(compared: &mut Compared, call: &Call, answer: &Answer) {
    let machine = compared.machine.clone();
    let words = compared.words.clone();
    assert_eq!(&compared.step(call), answer, "{call:?}");
    assert_eq!(compared.machine, machine, "{call:?}");
    assert_eq!(compared.words, words, "{call:?}");
}

#[test]
fn operators_1_to_50_do_nothing_on_what_is_there() {
    let mut compared = on_graph(40);
    assert_eq!(compared.machine.tuples().count(), TUPLES);
    for operator in 1..=50 {
        for names in [[1, 5, 2], [2, 5, 1], [1, 6, 1]] {
            let call = call(names, operator, 9);
            check_call(&mut compared, &call, &expected(operator, names[0]));
        }
    }
}

/// 5 to 8: on a fresh store nothing is there but UNIVERSE.
#[test]
fn nothing_that_is_absent_is_missed() {
    for capacity in [1, 2, 40] {
        let mut compared = Compared::new(capacity, 0);
        for operator in 1..=50 {
            let call = call([7, 5, 8], operator, 9);
            check_call(&mut compared, &call, &expected(operator, 7));
        }
    }
}

/// Each condition from 5 to 8 applies to the same call in another space, where
/// it can: an absent space, a node that is absent from a space, an edge that is.
#[test]
fn conditions_5_to_8_are_not_tested() {
    let cases = [
        (5, [1, 5, 2], Space::Numbered(SpaceName(7))),
        (6, [3, 5, 2], Space::Numbered(SpaceName(9))),
        (7, [1, 5, 3], Space::Numbered(SpaceName(9))),
        (8, [1, 7, 2], Space::Universe),
    ];
    let compared = on_graph(40);
    for (number, names, space) in cases {
        let mut applied = 0;
        for operator in 1..=50 {
            let on_nothing = call(names, operator, 9);
            let elsewhere = Call {
                space,
                ..on_nothing
            };
            let refusal = compared.machine.clone().step(&elsewhere);
            applied += usize::from(refusal == Answer::Refusal(number));
            let answer = compared.machine.clone().step(&on_nothing);
            assert_eq!(answer, expected(operator, names[0]), "{operator}");
        }
        let operators = [50, 46, 20, 5][number as usize - 5];
        assert_eq!(applied, operators, "{number}");
    }
}

/// 9: k is 0, so a list without a place is enough; no place is written.
#[test]
fn condition_9_is_not_tested() {
    let mut compared = on_graph(40);
    for operator in (30..=44).chain([50]) {
        let [n, g, m] = [1, 5, 2];
        let elsewhere = Call {
            space: Space::Universe,
            ..call([n, g, m], operator, 0)
        };
        let refusal = compared.machine.clone().step(&elsewhere);
        assert_eq!(refusal, Answer::Refusal(9), "{operator}");
        for list_length in [0, 1, 2_048, 2_049] {
            let call = call([n, g, m], operator, list_length);
            check_call(&mut compared, &call, &Answer::List(Vec::new()));
        }
    }
    check_with(
        2_048,
        0,
        &[("CUN 1", "= 1 +1"), ("SUN", "R 9"), ("SUN -", "L 0")],
    );
}

/// 10: a full store answers C operators all the same.
#[test]
fn condition_10_is_not_tested() {
    let mut compared = on_graph(TUPLES);
    for operator in [1, 2, 3, 45] {
        let [n, g, m] = [1, 7, 2].map(|name| if operator == 45 { 7 } else { name });
        let elsewhere = Call {
            space: Space::Universe,
            ..call([n, g, m], operator, 0)
        };
        let refusal = compared.machine.clone().step(&elsewhere);
        assert_eq!(refusal, Answer::Refusal(10), "{operator}");
        check_call(
            &mut compared,
            &call([n, g, m], operator, 0),
            &Answer::Added(n, 0),
        );
    }
    let fresh = [("CUN 1", "R 10"), ("CUN 1 -", "= 1 +0"), ("CUN 1", "R 10")];
    check_with(1, 0, &fresh);
}

#[test]
fn an_empty_space_universe_and_nothing_are_three() {
    check_after(
        &GRAPH,
        &[
            ("SUN", "L 3 0:1 0:2 0:3"),
            ("SUN 8", "L 0"),
            ("SUN -", "L 0"),
            ("XUN 1", "T"),
            ("XUN 1 8", "NIL"),
            ("XUN 1 -", "NIL"),
            // What needs a node tells the empty space from nothing,
            ("SOP 1", "L 2 5:2 6:1"),
            ("SOP 1 8", "R 6"),
            ("SOP 1 -", "L 0"),
            ("XOP 1 5 2", "T"),
            ("XOP 1 5 2 8", "R 6"),
            ("XOP 1 5 2 -", "NIL"),
            ("VUN 1", "V 11"),
            ("VUN 1 8", "R 6"),
            ("VUN 1 -", "R 12"),
            ("VUS U", "V 100"),
            ("VUS 8", "V 80"),
            ("VUS -", "R 12"),
            ("DUS U", "R 4"),
            ("DUS -", "R 12"),
            ("DUS 8", "= 8 -1"),
            // and what makes one.
            ("CUN 4 -", "= 4 +0"),
            ("XUN 4", "NIL"),
            ("CUN 4 9", "= 4 +2"),
            ("XUN 4", "T"),
        ],
    );
}

#[test]
fn x_says_no_of_absent_nodes() {
    check(&[
        ("XOP 7 5 8", "R 6"),
        ("XOP 7 5 8 -", "NIL"),
        ("XIP 7 5 8 -", "NIL"),
        ("XAP 7 5 8 -", "NIL"),
        ("XUN 7 -", "NIL"),
        ("XUS -", "R 12"),
    ]);
}

#[test]
fn no_line_with_nothing_changes_the_graph() {
    let reads = "SUS\nSUN\nSUN 8\nSUN 9\nSAP 1\nSAP 1 9\nVUN 1\nVUN 1 9\nVOP 1 5 2\n\
                 VOP 1 5 2 9\nVIP 1 5 2\nVUS U\nVUS 9\nXUN 4\nXUN 1\nXUN 1 9\n";
    let before = GRAPH.map(|line| format!("{line}\n")).concat();
    let plain = printed(format!("{before}{reads}").as_bytes());
    for line in [
        "COP 1 7 2 -",
        "CIP 1 7 2 -",
        "CAP 3 5 3 -",
        "CUN 4 -",
        "BOP 1 5 2 7 -",
        "BAP 1 5 2 7 -",
        "BUN 1 7 -",
        "DOP 1 5 2 -",
        "DAG 1 -",
        "DAGG 1 5 -",
        "DAGN 1 2 -",
        "DAN 1 -",
        "DANG 1 5 -",
        "DUN 1 -",
        "CUS -",
        "BUS - 7",
        "DUS -",
    ] {
        let output = printed(format!("{before}{line}\n{reads}").as_bytes());
        let mut answers: Vec<&str> = output.lines().collect();
        let answer = answers.remove(GRAPH.len());
        assert!(
            answer.starts_with("= ") || answer == "R 12",
            "{line}: {answer}"
        );
        assert!(answers.into_iter().eq(plain.lines()), "{line}");
    }
}

#[test]
fn refusal_12_is_for_v_operators_and_51_to_55() {
    let compared = on_graph(40);
    for operator in 1..=57 {
        let answer = compared.machine.clone().step(&call([1, 5, 2], operator, 9));
        let is_refused = is_value_operator(operator) || (51..=55).contains(&operator);
        assert_eq!(answer == Answer::Refusal(12), is_refused, "{operator}");
    }
    assert!((1..=57)
        .all(|operator| { is_value_operator(operator) == (kind(operator) == Some(Kind::Value)) }));
}

#[test]
fn refusal_12_comes_before_4_to_10() {
    // 5 to 8 would apply to any numbered space, 10 to CUS; 55 is not on UNIVERSE.
    for capacity in [1, 2] {
        let mut compared = Compared::new(capacity, 0);
        for operator in refused() {
            for list_length in [0, 1] {
                let call = call([7, 5, 8], operator, list_length);
                check_call(&mut compared, &call, &Answer::Refusal(12));
            }
        }
    }
    // Nor does it matter what is there.
    let mut compared = on_graph(TUPLES);
    for operator in refused() {
        check_call(
            &mut compared,
            &call([1, 5, 2], operator, 0),
            &Answer::Refusal(12),
        );
        check_call(
            &mut compared,
            &call([7, 5, 8], operator, 0),
            &Answer::Refusal(12),
        );
    }
}

/// Nothing itself is no name.
#[test]
fn refusal_3_is_for_each_name_that_is_read_and_comes_before_12() {
    let mut compared = on_graph(40);
    for operator in 1..=55 {
        let cases = [
            (Argument::FirstNode, [0, 5, 2]),
            (Argument::Edge, [1, 0, 2]),
            (Argument::SecondNode, [1, 5, 0]),
        ];
        for (argument, names) in cases {
            let answer = match reads(operator, argument) {
                true => Answer::Refusal(3),
                false if (51..=55).contains(&operator) => Answer::Refusal(12),
                false => expected(operator, names[0]),
            };
            check_call(&mut compared, &call(names, operator, 9), &answer);
        }
    }
    check(&[
        ("VOP 0 5 2 -", "R 3"),
        ("VIP 1 0 2 -", "R 3"),
        ("VOP 1 5 0 -", "R 3"),
        ("VUN 0 -", "R 3"),
        ("CUN 0 -", "R 3"),
        ("XOP 1 0 2 -", "R 3"),
        ("SOGN 1 0 -", "R 3"),
        ("SUN -", "L 0"),
        ("SUN 0", "R 3"),
        ("VUS -", "R 12"),
        ("VUS 0", "R 3"),
    ]);
}

#[test]
fn refusals_1_and_2_come_first() {
    let mut compared = on_graph(40);
    for operator in [0, 58, 65_536 + 7, 65_536 + 51, u32::MAX] {
        for names in [[1, 5, 2], [0, 0, 0]] {
            let call = call(names, operator, 0);
            check_call(&mut compared, &call, &Answer::Refusal(2));
        }
    }
    let mut words = vec![0; 16];
    for operator in 0..=58 {
        let answer = chained::execute(&mut words, &call([0, 0, 0], operator, 0), &mut []);
        assert_eq!(answer, chained::Answer::Refusal(1));
        assert!(!buffer::is_store(&words));
    }
}

/// 56 and 57 do not read the space.
#[test]
fn both_forms_of_sus_do_not_see_it() {
    let compared = on_graph(40);
    for operator in [56, 57] {
        for names in [[1, 5, 2], [3, 0, 0], [7, 0, 0], [0, 0, 0]] {
            for list_length in 0..4 {
                let on_nothing = call(names, operator, list_length);
                let elsewhere = Call {
                    space: Space::Universe,
                    ..on_nothing
                };
                let answer = compared.machine.clone().step(&on_nothing);
                assert_eq!(answer, compared.machine.clone().step(&elsewhere));
            }
        }
    }
    let mut machine = compared.machine;
    let mut step = |line| machine.step(&raw::read_call(line).expect("a raw call"));
    let spaces = Answer::List(vec![(0, 0), (0, 8), (0, 9)]);
    assert_eq!(step("56 0 0 0 0 - 3"), spaces);
    assert_eq!(step("57 1 0 0 0 - 2"), Answer::List(vec![(0, 0), (0, 9)]));
    assert_eq!(step("57 0 0 0 0 - 2"), Answer::Refusal(3));
    assert_eq!(step("57 7 0 0 0 - 2"), Answer::Refusal(6));
    assert_eq!(step("56 0 0 0 0 - 2"), Answer::Refusal(9));
}

/// A call on nothing can stand anywhere in a list: it leaves the state, and all
/// other calls are answered as without it.
#[test]
fn a_call_on_nothing_changes_no_later_answer() {
    let mut put_in = 0;
    for place in 0..150 {
        let mut draws = Draws::new(12, 1, place);
        let capacity = 1 + draws.below(60);
        let run = lists::run(&mut draws, capacity, 40);
        let mut compared = Compared::new(capacity, place as usize % 6);
        let mut plain = Machine::new(capacity);
        for call in &run.calls {
            while draws.once_in(3) {
                let on_nothing = Call {
                    space: Space::Nothing,
                    operator: 1 + draws.below(55) as u32,
                    ..lists::any_call(&mut draws, &plain)
                };
                let words = compared.words.clone();
                compared.step(&on_nothing);
                assert_eq!(compared.words, words, "{on_nothing:?}");
                assert_eq!(compared.machine, plain, "{on_nothing:?}");
                put_in += 1;
            }
            assert_eq!(compared.step(call), plain.step(call));
        }
        compared.check_state();
        assert_eq!(compared.machine, run.machine);
    }
    assert!(put_in > 2_000, "{put_in}");
}

/// Each operator meets nothing in the random lists, and is answered or refused
/// there as it must be.
#[test]
fn random_lists_have_nothing_with_every_operator() {
    let mut met = std::collections::BTreeMap::new();
    for place in 0..400 {
        let run = lists::draw(&mut Draws::new(1, 1, place));
        let on_nothing = run.calls.iter().zip(&run.answers);
        for (call, answer) in on_nothing.filter(|(call, _)| call.space == Space::Nothing) {
            if *answer != Answer::Refusal(3) {
                *met.entry(call.operator).or_insert(0) += 1;
            }
            let is_refused = matches!(answer, Answer::Refusal(_));
            if call.operator <= 50 && !is_refused {
                assert_eq!(*answer, expected(call.operator, call.n.0));
            }
        }
    }
    for operator in 1..=57 {
        assert!(
            met.get(&operator).is_some_and(|&count| count >= 5),
            "{operator}: {met:?}"
        );
    }
}

/// A run of calls in words: form 2 is nothing, whatever number stands beside
/// it; 1, 3 and all others are numbered.
#[test]
fn a_run_of_words_has_three_forms() {
    let compared = on_graph(40);
    let sun = |form: u32, s: u32| [50, 0, 0, 0, 0, 0, form, s, 3];
    let on_nothing = |operator, n, s| [operator, n, 0, 0, 0, 0, 2, s, 0];
    let calls = [
        sun(0, 9),
        sun(1, 9),
        sun(2, 9),
        sun(2, 0),
        sun(2, 7),
        sun(3, 9),
        sun(3, 7),
        on_nothing(45, 7, 9),
        on_nothing(49, 1, 9),
        on_nothing(51, 0, 7),
        on_nothing(55, 0, 9),
        on_nothing(47, 1, 9),
        on_nothing(47, 0, 9),
        [56, 0, 0, 0, 0, 0, 2, 0, 3],
    ];
    let expected = [
        [4, 3, 0],
        [4, 2, 0],
        [4, 0, 0],
        [4, 0, 0],
        [4, 0, 0],
        [4, 2, 0],
        [0, 5, 0],
        [6, 7, 0],
        [7, 1, 0],
        [0, 12, 0],
        [0, 12, 0],
        [0, 12, 0],
        [0, 3, 0],
        [4, 3, 0],
    ];
    let mut words = compared.words.clone();
    let mut answers = [[9; 3]; 14];
    let mut lists = [99; 24];
    let answers_flat = answers.as_flattened_mut();
    assert_eq!(
        chained::run(&mut words, calls.as_flattened(), answers_flat, &mut lists),
        0
    );
    assert_eq!(answers, expected);
    let mut places = [99; 24];
    places[..5].copy_from_slice(&[1, 2, 3, 1, 2]);
    places[15..17].copy_from_slice(&[1, 2]);
    places[21..].copy_from_slice(&[0, 8, 9]);
    assert_eq!(lists, places);
    assert_eq!(words, compared.words);
    // The machine, by the calls that the words give.
    let mut machine = compared.machine;
    for (words, answer) in calls.iter().zip(expected) {
        let mut list = [99; 3];
        assert_eq!(
            packed::write(&machine.step(&packed::call_of(words)), &mut list),
            answer
        );
    }
}

/// The loads that are measured have no such call.
#[test]
fn measured_loads_are_without_nothing() {
    let loads = load::Drawn::new(1, 20).take(5_000).chain(load::panel());
    let has_nothing = |call: Call| call.space == Space::Nothing;
    assert!(!loads.chain(load::panel_reads(1)).any(has_nothing));
}

//! Request 2: how many tuples a call has added or removed.

mod common;

use common::compared::Compared;
use common::{check, check_after, check_with, printed, printed_with};
use gaffdamson_reference::compare::changes;
use gaffdamson_reference::load;
use gaffdamson_reference::machine::{Answer, Call, Edge, Machine, Node, Space, SpaceName};
use gaffdamson_reference::operators::{kind, Kind};
use gaffdamson_reference::random::{lists, scripts, Draws};
use gaffdamson_reference::{chained, packed, script};

#[test]
fn a_node_is_added_to_its_space_and_to_universe() {
    check(&[
        ("CUS 9", "= 9 +1"),
        ("CUN 1 9", "= 1 +2"),
        ("CUN 1 9", "= 1 +0"),
        ("CUN 1", "= 1 +0"),
        ("CUN 2", "= 2 +1"),
        ("CUN 2 9", "= 2 +1"),
        ("CUN 2 U", "= 2 +0"),
    ]);
}

#[test]
fn a_space_is_one_tuple() {
    check(&[
        ("CUS U", "= 0 +0"),
        ("CUS 9", "= 9 +1"),
        ("CUS 9", "= 9 +0"),
        ("DUS 8", "= 8 -0"),
        ("DUS 9", "= 9 -1"),
        ("DUS 9", "= 9 -0"),
    ]);
}

#[test]
fn a_space_takes_what_it_holds_along() {
    let before = ["CUS 9", "CUN 1 9", "CUN 2 9", "CAP 1 5 2 9", "CUN 3"];
    check_after(
        &before,
        &[
            ("DUS 9", "= 9 -5"),
            ("SUN", "L 3 0:1 0:2 0:3"),
            ("SAP 1", "L 1 5:2"),
        ],
    );
}

#[test]
fn edges_are_counted_by_direction_and_space() {
    let before = ["CUS 9", "CUN 1 9", "CUN 2 9"];
    // Both directions are new, in UNIVERSE and in the space.
    check_after(&before, &[("CAP 1 5 2 9", "= 1 +4")]);
    check_after(
        &before,
        &[
            ("COP 1 5 2", "= 1 +1"),
            ("CAP 1 5 2", "= 1 +1"),
            ("CIP 1 5 2 9", "= 1 +1"),
            ("CAP 1 5 2 9", "= 1 +1"),
            ("CAP 1 5 2 9", "= 1 +0"),
            ("DOP 1 5 2 9", "= 1 -1"),
            ("DAP 1 5 2 9", "= 1 -1"),
            ("DAP 1 5 2 9", "= 1 -0"),
            ("CAP 1 5 2 9", "= 1 +2"),
            ("DAP 1 5 2", "= 1 -4"),
            ("COP 1 6 2 9", "= 1 +2"),
        ],
    );
}

#[test]
fn a_loop_is_one_edge() {
    check(&[
        ("CUN 1", "= 1 +1"),
        ("CAP 1 5 1", "= 1 +1"),
        ("CAP 1 5 1", "= 1 +0"),
        ("CUS 9", "= 9 +1"),
        ("CUN 1 9", "= 1 +1"),
        ("CAP 1 5 1 9", "= 1 +1"),
        ("CAP 1 6 1 9", "= 1 +2"),
        ("DAG 1 9", "= 1 -2"),
        ("DAG 1", "= 1 -2"),
    ]);
}

/// UNIVERSE: nodes 1 to 3. Spaces 8 and 9: nodes 1 and 2, edge 1-5-2; in 9 a
/// loop 1-6-1 too. Edge 3-7-1 is in UNIVERSE alone.
const GRAPH: [&str; 11] = [
    "CUS 8",
    "CUS 9",
    "CUN 1 8",
    "CUN 2 8",
    "CUN 1 9",
    "CUN 2 9",
    "CUN 3",
    "COP 1 5 2 8",
    "COP 1 5 2 9",
    "COP 1 6 1 9",
    "COP 3 7 1",
];

#[test]
fn a_removal_from_universe_counts_all_spaces() {
    let cases = [
        // Node 1 three times, its edges 5 three times, 6 twice, 7 once.
        ("DUN 1", "= 1 -9"),
        ("DUN 2", "= 2 -6"),
        ("DUN 3", "= 3 -2"),
        ("DUN 4", "= 4 -0"),
        ("DOP 1 5 2", "= 1 -3"),
        ("DIP 1 5 2", "= 1 -0"),
        ("DOG 1", "= 1 -5"),
        ("DIG 1", "= 1 -3"),
        ("DAG 1", "= 1 -6"),
        ("DAGG 1 6", "= 1 -2"),
        ("DOGN 1 2", "= 1 -3"),
        // DON takes 1 itself too, by its loop.
        ("DON 1", "= 1 -12"),
        ("DONG 1 5", "= 1 -6"),
        ("DIN 2", "= 2 -9"),
        ("DANG 3 5", "= 3 -0"),
    ];
    for (line, answer) in cases {
        check_after(&GRAPH, &[(line, answer)]);
    }
}

#[test]
fn a_removal_from_a_space_counts_that_space() {
    let cases = [
        ("DUN 1 9", "= 1 -3"),
        ("DUN 1 8", "= 1 -2"),
        ("DUN 3 9", "= 3 -0"),
        ("DOP 1 5 2 9", "= 1 -1"),
        ("DAG 1 9", "= 1 -2"),
        ("DON 1 9", "= 1 -4"),
        ("DON 1 8", "= 1 -2"),
        ("DUS 8", "= 8 -4"),
        ("DUS 9", "= 9 -5"),
    ];
    for (line, answer) in cases {
        check_after(&GRAPH, &[(line, answer)]);
    }
}

#[test]
fn with_no_selection_the_number_is_0() {
    check_after(
        &GRAPH,
        &[
            ("CUN 4 -", "= 4 +0"),
            ("COP 1 9 2 -", "= 1 +0"),
            ("CAP 1 9 2 -", "= 1 +0"),
            ("DUN 1 -", "= 1 -0"),
            ("DOP 1 5 2 -", "= 1 -0"),
            ("DON 1 -", "= 1 -0"),
            ("BUN 1 7 -", "= 1"),
            ("DUN 1", "= 1 -9"),
        ],
    );
}

#[test]
fn b_prints_no_number() {
    check_after(
        &GRAPH,
        &[
            ("BUN 1 60", "= 1"),
            ("BOP 1 5 2 60 9", "= 1"),
            ("BIP 2 5 1 60", "= 2"),
            ("BAP 1 6 1 0 9", "= 1"),
            ("BUS 9 60", "= 9"),
            ("BUS U 60", "= 0"),
        ],
    );
}

#[test]
fn a_refusal_prints_no_number() {
    check_with(
        3,
        2048,
        &[
            ("CUN 0", "R 3"),
            ("DUS U", "R 4"),
            ("CUN 1 9", "R 5"),
            ("DOG 1", "R 6"),
            ("CUN 1", "= 1 +1"),
            ("COP 1 5 2", "R 7"),
            ("CUN 2", "= 2 +1"),
            ("CAP 1 5 2", "R 10"),
            ("CUS -", "R 12"),
            ("DUS -", "R 12"),
            ("CUN 1 ", "R 11"),
        ],
    );
}

#[test]
fn the_greatest_number() {
    let mut script = String::new();
    for node in 1..=2_047 {
        script += &format!("CUN {node}\n");
    }
    let mut star = "CUN 1\n".to_string();
    for edge in 1..=2_046 {
        star += &format!("COP 1 {edge} 1\n");
    }
    let last = |script: &str| {
        let output = printed(script.as_bytes());
        output.lines().last().unwrap_or_default().to_string()
    };
    assert_eq!(last(&format!("{script}DUN 2047")), "= 2047 -1");
    assert_eq!(last(&format!("{star}DUN 1")), "= 1 -2047");
    assert_eq!(last(&format!("{star}DAG 1")), "= 1 -2046");
}

/// Only answers of C and D have a number, and each of them has one.
fn number_of(call: &Call, answer: &Answer) -> Option<i64> {
    match (kind(call.operator), answer) {
        (_, Answer::Refusal(_)) => None,
        (Some(Kind::Create), Answer::Added(_, count)) => Some(*count as i64),
        (Some(Kind::Destroy), Answer::Removed(_, count)) => Some(-(*count as i64)),
        (Some(Kind::Bind), Answer::Name(_)) => None,
        (Some(Kind::Value), Answer::Value(_)) => None,
        (Some(Kind::Exists), Answer::YesNo(_)) => None,
        (Some(Kind::SetOf), Answer::List(_)) => None,
        _ => panic!("{call:?} gives {answer:?}"),
    }
}

/// Makes calls on a fresh machine and a fresh store. Each number is the
/// difference of the tuple counts; together they are the tuples at the end
/// less one.
fn check_numbers(compared: &mut Compared, calls: impl IntoIterator<Item = Call>) {
    let mut sum = 0;
    for call in calls {
        let before = compared.machine.tuples().count() as i64;
        let answer = compared.step(&call);
        let after = compared.machine.tuples().count() as i64;
        let number = number_of(&call, &answer).unwrap_or(0);
        assert_eq!(number, after - before, "{call:?}");
        sum += number;
    }
    assert_eq!(sum, compared.machine.tuples().count() as i64 - 1);
    assert_eq!(compared.words[3] as i64, sum + 1);
}

#[test]
fn the_numbers_are_those_of_the_tuples() {
    for place in 0..100 {
        let mut draws = Draws::new(14, 1, place);
        let capacity = 1 + draws.below(if place % 4 == 0 { 12 } else { 200 });
        let run = lists::run(&mut draws, capacity, 80);
        let mut compared = Compared::new(capacity, 0);
        check_numbers(&mut compared, run.calls.iter().copied());
        let (added, removed) = run.changes();
        assert_eq!(1 + added, run.machine.tuples().count() + removed);
    }
    for (k, capacity) in [(2, 20), (6, 300), (30, 2_048)] {
        check_numbers(&mut Compared::new(capacity, 0), load::dense(k, k).take(500));
    }
    check_numbers(&mut Compared::new(2_048, 0), load::panel());
}

/// The same by what is printed, also where lines are unreadable.
#[test]
fn the_printed_numbers_add_up() {
    let (mut all_added, mut all_removed) = (0, 0);
    for place in 1..=150 {
        let input = scripts::nth(1, place);
        let (output, machine) = printed_with(&input, script::CAPACITY, script::LIST_LENGTH);
        let (added, removed) = changes(output.as_bytes());
        assert_eq!(1 + added, machine.tuples().count() + removed, "{place}");
        all_added += added;
        all_removed += removed;
    }
    assert!(
        all_added > 3_000 && all_removed > 500,
        "{all_added} {all_removed}"
    );
}

/// The same by the words of a run, of the hand-written store.
#[test]
fn the_numbers_of_a_run_add_up() {
    let calls: Vec<Call> = load::dense(9, 8)
        .take(2_000)
        .map(|call| Call {
            list_length: 40,
            ..call
        })
        .collect();
    let words: Vec<u32> = calls.iter().flat_map(packed::call).collect();
    let mut answers = vec![9; 3 * calls.len()];
    let mut lists = vec![9; 40 * calls.len()];
    let mut store = vec![0; 4 + 6 * 300];
    assert_eq!(chained::prepare(&mut store), Ok(300));
    let code = chained::run(&mut store, &words, &mut answers, &mut lists);
    assert_eq!(code, 0);
    let (added, removed) = packed::changes(&answers);
    assert_eq!(1 + added, u64::from(store[3]) + removed);
    assert!(added > 300 && removed > 100, "{added} {removed}");
}

/// A call in words on a machine that has nodes 1 and 2, an edge 5 from 1 to 2,
/// and the space 9 with node 1.
fn answer_to(fields: [u32; 8]) -> [u32; 3] {
    let mut machine = Machine::new(40);
    for line in ["CUN 1", "CUN 2", "COP 1 5 2", "CUS 9", "CUN 1 9"] {
        let call = script::read_call(line.as_bytes(), 0).expect("readable");
        machine.step(&call);
    }
    let call = packed::call_of_fields(&fields, 9);
    packed::write(&machine.step(&call), &mut [0; 9])
}

#[test]
fn words_that_are_no_names_are_refused_where_they_are_read() {
    let refused = [0, 3, 0];
    for no_name in [65_536, 65_537, 0x8000_0001, u32::MAX] {
        assert_eq!(answer_to([45, no_name, 0, 0, 0, 0, 0, 0]), refused);
        assert_eq!(answer_to([1, 1, no_name, 2, 0, 0, 0, 0]), refused);
        assert_eq!(answer_to([1, 1, 5, no_name, 0, 0, 0, 0]), refused);
        assert_eq!(answer_to([50, 0, 0, 0, 0, 0, 1, no_name]), refused);
        assert_eq!(answer_to([51, 0, 0, 0, 0, 0, 1, no_name]), refused);
        assert_eq!(answer_to([57, no_name, 0, 0, 0, 0, 0, 0]), refused);
        // 3 comes before 12.
        assert_eq!(answer_to([47, no_name, 0, 0, 0, 0, 2, 0]), refused);
        // Where they are not read they have no effect.
        let unread = [45, 3, no_name, no_name, no_name, no_name, 0, no_name];
        assert_eq!(answer_to(unread), [6, 3, 1]);
        let unread = [51, no_name, no_name, no_name, no_name, no_name, 1, 8];
        assert_eq!(answer_to(unread), [6, 8, 1]);
        let unread = [49, 1, no_name, no_name, 1, 1, 2, no_name];
        assert_eq!(answer_to(unread), [7, 1, 0]);
        let unread = [56, no_name, no_name, no_name, 0, 0, no_name, no_name];
        assert_eq!(answer_to(unread), [4, 2, 0]);
    }
}

#[test]
fn forms_of_any_number() {
    for form in [1, 3, 65_536, 65_538, u32::MAX] {
        assert_eq!(answer_to([50, 0, 0, 0, 0, 0, form, 9]), [4, 1, 0]);
    }
    assert_eq!(answer_to([50, 0, 0, 0, 0, 0, 0, 9]), [4, 2, 0]);
    assert_eq!(answer_to([50, 0, 0, 0, 0, 0, 2, 9]), [4, 0, 0]);
}

#[test]
fn a_value_has_its_form_and_its_second_word() {
    let set = |form, v| {
        let mut machine = Machine::new(4);
        let node = Call {
            operator: 45,
            n: Node(1),
            g: Edge(0),
            m: Node(0),
            v: 0,
            space: Space::Universe,
            list_length: 0,
        };
        machine.step(&node);
        let bind = packed::call_of_fields(&[46, 1, 0, 0, form, v, 0, 0], 0);
        assert_eq!(machine.step(&bind), Answer::Name(1));
        let read = Call {
            operator: 47,
            ..node
        };
        packed::write(&machine.step(&read), &mut [])
    };
    for form in [1, 2, 65_536, u32::MAX] {
        assert_eq!(set(form, 60), [2, 60, 1]);
        assert_eq!(set(form, u32::MAX), [2, u32::MAX, 1]);
        assert_eq!(set(form, 0), [2, 0, 0]);
    }
    assert_eq!(set(0, 60), [2, 0, 0]);
}

#[test]
fn the_first_argument_of_each_kind() {
    let mut machine = Machine::new(40);
    let on_9 = |operator| Call {
        operator,
        n: Node(1),
        g: Edge(5),
        m: Node(1),
        v: 7,
        space: Space::Numbered(SpaceName(9)),
        list_length: 9,
    };
    let answers = [
        (51, Answer::Added(9, 1)),
        (52, Answer::Name(9)),
        (45, Answer::Added(1, 2)),
        (46, Answer::Name(1)),
        (3, Answer::Added(1, 2)),
        (6, Answer::Name(1)),
        (14, Answer::Removed(1, 1)),
        (49, Answer::Removed(1, 1)),
        (55, Answer::Removed(9, 1)),
    ];
    for (operator, answer) in answers {
        assert_eq!(machine.step(&on_9(operator)), answer, "{operator}");
    }
}

//! Every refusal, and which wins when two apply.

mod common;

use common::{check, check_after, check_with};
use gaffdamson_reference::machine::{Answer, Call, Machine};
use gaffdamson_reference::{operators, raw};

/// The answer to a raw call.
fn step(machine: &mut Machine, line: &str) -> Answer {
    let call: Call = raw::read_call(line).expect("a raw call");
    machine.step(&call)
}

#[test]
fn refusal_2_is_for_all_other_operators() {
    let mut machine = Machine::new(1);
    for operator in [0, 58, 59, 255, 65_536, 65_593, 4_294_967_295u32] {
        let line = format!("{operator} 1 1 1 1 U 10");
        assert_eq!(step(&mut machine, &line), Answer::Refusal(2));
    }
}

#[test]
fn refusal_2_comes_before_all_others() {
    let mut machine = Machine::new(1);
    for line in ["0 0 0 0 0 0 0", "58 0 0 0 0 9 0", "58 1 5 2 0 U 0"] {
        assert_eq!(step(&mut machine, line), Answer::Refusal(2));
    }
}

#[test]
fn refusal_3_for_each_name_that_is_read() {
    let mut machine = Machine::new(100);
    for line in [
        "51 0 0 0 0 9 9",
        "45 1 0 0 0 9 9",
        "45 2 0 0 0 9 9",
        "1 1 5 2 0 9 9",
    ] {
        assert!(matches!(step(&mut machine, line), Answer::Added(..)));
    }
    use operators::Argument;
    for operator in 1..=57 {
        let zero = |argument| operators::reads(operator, argument);
        let cases = [
            (Argument::FirstNode, "0 5 2 7 9 9"),
            (Argument::Edge, "1 0 2 7 9 9"),
            (Argument::SecondNode, "1 5 0 7 9 9"),
            (Argument::Space, "1 5 2 7 0 9"),
        ];
        for (argument, fields) in cases {
            let before = machine.clone();
            let answer = step(&mut machine, &format!("{operator} {fields}"));
            let is_refused = answer == Answer::Refusal(3);
            assert_eq!(is_refused, zero(argument), "{operator} {fields}");
            machine = before;
        }
    }
}

#[test]
fn refusal_3_is_not_for_a_value_of_zero() {
    check(&[("CUN 1", "= 1 +1"), ("BUN 1 0", "= 1"), ("BUS U 0", "= 0")]);
}

#[test]
fn a_space_written_0_is_refused_3() {
    check(&[
        ("SUN 0", "R 3"),
        ("CUS 0", "R 3"),
        ("BUS 0 5", "R 3"),
        ("VUS 0", "R 3"),
        ("XUS 0", "R 3"),
        ("DUS 0", "R 3"),
        ("CUN 1 0", "R 3"),
    ]);
}

#[test]
fn refusal_3_comes_before_5_6_7_8() {
    // Space 7, node 1 and node 2 are absent.
    check(&[
        ("CUN 0 7", "R 3"),
        ("COP 1 5 0 7", "R 3"),
        ("COP 1 0 2", "R 3"),
        ("COP 0 5 2", "R 3"),
        ("COP 1 5 0", "R 3"),
        ("VUN 0", "R 3"),
        ("SUS 0", "R 3"),
        ("DOGG 1 0", "R 3"),
        ("SOGN 1 0", "R 3"),
    ]);
    let nodes = ["CUN 1", "CUN 2"];
    check_after(&nodes, &[("VOP 1 0 2", "R 3"), ("BAP 1 0 3 5", "R 3")]);
}

#[test]
fn refusal_3_comes_before_9_and_10() {
    let mut machine = Machine::new(2);
    assert_eq!(step(&mut machine, "45 1 0 0 0 U 0"), Answer::Added(1, 1));
    assert_eq!(step(&mut machine, "50 0 0 0 0 0 0"), Answer::Refusal(3));
    assert_eq!(step(&mut machine, "57 0 0 0 0 U 0"), Answer::Refusal(3));
    assert_eq!(step(&mut machine, "45 0 0 0 0 U 0"), Answer::Refusal(3));
    assert_eq!(step(&mut machine, "1 1 0 1 0 U 0"), Answer::Refusal(3));
}

#[test]
fn refusal_4_is_for_dus_on_universe_alone() {
    check(&[
        ("DUS U", "R 4"),
        ("XUS U", "T"),
        ("CUS U", "= 0 +0"),
        ("BUS U 7", "= 0"),
        ("VUS U", "V 7"),
        ("DUS 9", "= 9 -0"),
    ]);
}

#[test]
fn refusal_5_is_for_all_that_need_the_space() {
    let mut machine = Machine::new(100);
    for line in ["45 1 0 0 0 U 9", "45 2 0 0 0 U 9", "1 1 5 2 0 U 9"] {
        assert!(matches!(step(&mut machine, line), Answer::Added(..)));
    }
    for operator in 1..=57 {
        let answer = step(&mut machine.clone(), &format!("{operator} 1 5 2 0 7 99"));
        let needs_it = !matches!(operator, 51 | 54 | 55 | 56 | 57);
        assert_eq!(answer == Answer::Refusal(5), needs_it, "{operator}");
    }
}

#[test]
fn refusal_5_comes_before_6_7_8_9_10() {
    check_with(
        1,
        0,
        &[
            ("DOG 1 7", "R 5"),
            ("COP 1 5 2 7", "R 5"),
            ("VOP 1 5 2 7", "R 5"),
            ("SUN 7", "R 5"),
            ("SOP 1 7", "R 5"),
            ("CUN 1 7", "R 5"),
        ],
    );
}

#[test]
fn refusal_6_is_for_1_to_44_and_46_47_57() {
    let mut machine = Machine::new(100);
    for line in ["51 0 0 0 0 9 9", "45 1 0 0 0 U 9", "45 2 0 0 0 9 9"] {
        assert!(matches!(step(&mut machine, line), Answer::Added(..)));
    }
    for operator in 1..=57 {
        // Node 1 is in UNIVERSE but not in space 9; 57 looks in UNIVERSE.
        let answer = step(&mut machine.clone(), &format!("{operator} 1 5 2 0 9 99"));
        let needs_it = matches!(operator, 1..=44 | 46 | 47);
        assert_eq!(answer == Answer::Refusal(6), needs_it, "{operator}");
        // Node 3 is nowhere.
        let answer = step(&mut machine.clone(), &format!("{operator} 3 5 2 0 9 99"));
        let needs_it = matches!(operator, 1..=44 | 46 | 47 | 57);
        assert_eq!(answer == Answer::Refusal(6), needs_it, "{operator}");
    }
}

#[test]
fn refusal_6_comes_before_7_8_9_10() {
    check_with(
        1,
        0,
        &[
            ("COP 1 5 2", "R 6"),
            ("BOP 1 5 2 60", "R 6"),
            ("VIP 1 5 2", "R 6"),
            ("DOGN 1 2", "R 6"),
            ("SOGN 1 2", "R 6"),
            ("SUS 1", "R 6"),
            ("SOP 1", "R 6"),
            ("CAP 1 5 1", "R 6"),
        ],
    );
}

#[test]
fn refusal_7_is_for_all_that_read_m() {
    let mut machine = Machine::new(100);
    for line in ["51 0 0 0 0 9 9", "45 1 0 0 0 9 9", "45 2 0 0 0 U 9"] {
        assert!(matches!(step(&mut machine, line), Answer::Added(..)));
    }
    for operator in 1..=57 {
        // Node 2 is in UNIVERSE but not in space 9.
        let answer = step(&mut machine.clone(), &format!("{operator} 1 5 2 0 9 99"));
        let needs_it = matches!(operator, 1..=14 | 21..=23 | 36..=38);
        assert_eq!(answer == Answer::Refusal(7), needs_it, "{operator}");
    }
}

#[test]
fn refusal_7_comes_before_8_and_10() {
    check_with(
        2,
        0,
        &[
            ("CUN 1", "= 1 +1"),
            ("VOP 1 5 2", "R 7"),
            ("BAP 1 5 2 60", "R 7"),
            ("COP 1 5 2", "R 7"),
            ("CAP 1 5 2", "R 7"),
        ],
    );
}

#[test]
fn refusal_8_is_for_4_to_8() {
    let mut machine = Machine::new(100);
    for line in ["45 1 0 0 0 U 9", "45 2 0 0 0 U 9"] {
        assert!(matches!(step(&mut machine, line), Answer::Added(..)));
    }
    for operator in 1..=57 {
        let answer = step(&mut machine.clone(), &format!("{operator} 1 5 2 0 U 99"));
        let needs_it = matches!(operator, 4..=8);
        assert_eq!(answer == Answer::Refusal(8), needs_it, "{operator}");
    }
}

#[test]
fn refusal_8_looks_in_the_right_direction() {
    let before = ["CUN 1", "CUN 2", "COP 1 5 2"];
    check_after(
        &before,
        &[
            ("BIP 1 5 2 60", "R 8"),
            ("VIP 1 5 2", "R 8"),
            ("BOP 2 5 1 60", "R 8"),
            ("VOP 2 5 1", "R 8"),
            ("VOP 1 6 2", "R 8"),
            ("BAP 1 5 2 60", "= 1"),
            ("BAP 2 5 1 61", "= 2"),
            ("BAP 1 6 2 60", "R 8"),
            ("VOP 1 5 2", "V 61"),
        ],
    );
}

#[test]
fn refusal_8_looks_in_the_space() {
    let before = ["CUS 9", "CUN 1 9", "CUN 2 9", "COP 1 5 2"];
    check_after(
        &before,
        &[
            ("VOP 1 5 2", "V 0"),
            ("VOP 1 5 2 9", "R 8"),
            ("BOP 1 5 2 60 9", "R 8"),
        ],
    );
}

#[test]
fn refusal_9_counts_what_is_listed() {
    // Two edges 5 from 1: two pairs, one edge name, two nodes.
    let lines = [
        ("CUN 1", "= 1 +1"),
        ("CUN 2", "= 2 +1"),
        ("COP 1 5 1", "= 1 +1"),
        ("COP 1 5 2", "= 1 +1"),
        ("SOP 1", "R 9"),
        ("SOG 1", "L 1 5:0"),
        ("SON 1", "R 9"),
        ("SAGN 1 1", "L 1 5:0"),
        ("SUN", "R 9"),
        ("SUS", "L 1 0:0"),
        ("CUS 9", "= 9 +1"),
        ("SUS", "R 9"),
        ("SUS 1", "L 1 0:0"),
        ("SUN 9", "L 0"),
    ];
    check_with(2048, 1, &lines);
}

#[test]
fn refusal_9_is_not_for_operators_without_a_list() {
    check_with(
        2048,
        0,
        &[
            ("CUN 1", "= 1 +1"),
            ("VUN 1", "V 0"),
            ("XUN 1", "T"),
            ("DUN 1", "= 1 -1"),
        ],
    );
}

#[test]
fn refusal_10_is_for_creates_that_add() {
    check_with(
        3,
        0,
        &[
            ("CUN 1", "= 1 +1"),
            ("COP 1 5 1", "= 1 +1"),
            ("CUN 2", "R 10"),
            ("CUS 9", "R 10"),
            ("COP 1 6 1", "R 10"),
            ("CIP 1 6 1", "R 10"),
            ("CAP 1 6 1", "R 10"),
            ("CUN 1", "= 1 +0"),
            ("CUS U", "= 0 +0"),
            ("CAP 1 5 1", "= 1 +0"),
            ("BUN 1 5", "= 1"),
            ("DOP 1 5 1", "= 1 -1"),
            ("CUS 9", "= 9 +1"),
        ],
    );
}

#[test]
fn refusal_11_comes_before_all_others() {
    check(&[
        ("CUN 65536 9", "R 11"),
        ("COP 0 0 65536", "R 11"),
        ("DUS V", "R 11"),
        ("VAP 0 0 0", "R 11"),
    ]);
}

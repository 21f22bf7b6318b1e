//! What no example of the manual shows.

mod common;

use common::{check_after, check_with, state};

/// Nodes 1 to 4; a loop 1-5-1 and the edges 1-5-2, 3-5-1 and 1-6-4.
const LOOP: [&str; 8] = [
    "CUN 1",
    "CUN 2",
    "CUN 3",
    "CUN 4",
    "COP 1 5 1",
    "COP 1 5 2",
    "COP 3 5 1",
    "COP 1 6 4",
];

#[test]
fn a_loop_takes_the_node_itself_with_the_others() {
    let cases = [
        ("DON 1", "= 1 -7", "L 1 0:3"),
        ("DIN 1", "= 1 -6", "L 2 0:2 0:4"),
        ("DAN 1", "= 1 -8", "L 0"),
        ("DONG 1 5", "= 1 -6", "L 2 0:3 0:4"),
        ("DING 1 5", "= 1 -6", "L 2 0:2 0:4"),
        ("DANG 1 5", "= 1 -7", "L 1 0:4"),
        ("DONG 1 6", "= 1 -2", "L 3 0:1 0:2 0:3"),
    ];
    for (line, answer, left) in cases {
        check_after(&LOOP, &[(line, answer), ("SUN", left)]);
    }
}

#[test]
fn a_loop_in_a_numbered_space_takes_the_node_there_only() {
    let before = [
        "CUS 9",
        "CUN 1 9",
        "CUN 2 9",
        "CUN 3 9",
        "COP 1 5 1 9",
        "COP 1 5 2 9",
        "COP 3 5 1 9",
    ];
    let cases = [
        ("DON 1 9", "= 1 -5", "L 1 0:3"),
        ("DIN 1 9", "= 1 -5", "L 1 0:2"),
        ("DAN 1 9", "= 1 -6", "L 0"),
        ("DONG 1 5 9", "= 1 -5", "L 1 0:3"),
        ("DING 1 5 9", "= 1 -5", "L 1 0:2"),
        ("DANG 1 5 9", "= 1 -6", "L 0"),
    ];
    for (line, answer, left) in cases {
        check_after(
            &before,
            &[
                (line, answer),
                ("SUN 9", left),
                ("SUN", "L 3 0:1 0:2 0:3"),
                ("SAP 1", "L 3 5:1 5:2 5:3"),
            ],
        );
    }
}

#[test]
fn ding_looks_for_edges_in_its_space() {
    // Edge 3-5-1 is in UNIVERSE only, so 3 stays in space 9.
    let before = [
        "CUS 9",
        "CUN 1 9",
        "CUN 2 9",
        "CUN 3 9",
        "COP 2 5 1 9",
        "COP 3 5 1",
    ];
    check_after(
        &before,
        &[
            ("DING 1 5 9", "= 1 -2"),
            ("SUN 9", "L 2 0:1 0:3"),
            ("SUN", "L 3 0:1 0:2 0:3"),
            ("SING 1 5", "L 2 0:2 0:3"),
        ],
    );
}

#[test]
fn ding_on_universe_takes_nodes_and_edges_everywhere() {
    let before = [
        "CUS 9",
        "CUN 1 9",
        "CUN 2 9",
        "CUN 3 9",
        "COP 2 5 1",
        "COP 2 6 3 9",
    ];
    check_after(
        &before,
        &[
            ("DING 1 5", "= 1 -5"),
            ("SUN 9", "L 2 0:1 0:3"),
            ("SAP 3 9", "L 0"),
        ],
    );
}

#[test]
fn dan_collects_all_its_nodes_before_it_removes_any() {
    // Taking the outpointing nodes first would drop 1 and lose its inpointing
    // nodes.
    let before = ["CUN 1", "CUN 2", "COP 1 5 1", "COP 2 6 1"];
    check_after(&before, &[("DAN 1", "= 1 -4"), ("SUN", "L 0")]);
}

#[test]
fn a_node_in_universe_need_not_be_in_a_space() {
    let before = ["CUN 1", "CUN 2", "CUS 9", "CUN 2 9"];
    check_after(
        &before,
        &[
            ("XUN 1 9", "NIL"),
            ("VUN 1 9", "R 6"),
            ("BUN 1 5 9", "R 6"),
            ("SOP 1 9", "R 6"),
            ("COP 2 5 1 9", "R 7"),
            ("XOP 2 5 1 9", "R 7"),
            ("DUN 1 9", "= 1 -0"),
            ("XUN 1", "T"),
            ("SUS 1", "L 1 0:0"),
            ("SUS 2", "L 2 0:0 0:9"),
        ],
    );
}

#[test]
fn a_space_made_again_is_empty_and_nil() {
    let before = [
        "CUS 9",
        "BUS 9 60",
        "CUN 1 9",
        "BUN 1 61 9",
        "COP 1 5 1 9",
        "DUS 9",
        "CUS 9",
    ];
    let machine = check_after(
        &before,
        &[
            ("VUS 9", "V 0"),
            ("SUN 9", "L 0"),
            ("CUN 1 9", "= 1 +1"),
            ("VUN 1 9", "V 0"),
            ("SAP 1 9", "L 0"),
        ],
    );
    let expected = [
        (0, 0, 0, 0, 0),
        (0, 1, 0, 0, 0),
        (0, 1, 5, 1, 0),
        (9, 0, 0, 0, 0),
        (9, 1, 0, 0, 0),
    ];
    assert_eq!(state(&machine), expected);
}

#[test]
fn a_create_in_a_space_does_not_copy_the_value_in_universe() {
    let before = [
        "CUN 1",
        "BUN 1 7",
        "COP 1 5 1",
        "BOP 1 5 1 60",
        "CUS 9",
        "CUN 1 9",
    ];
    check_after(
        &before,
        &[
            ("VUN 1 9", "V 0"),
            ("COP 1 5 1 9", "= 1 +1"),
            ("VOP 1 5 1 9", "V 0"),
            ("VOP 1 5 1", "V 60"),
            ("BOP 1 5 1 61 9", "= 1"),
            ("COP 1 5 1 9", "= 1 +0"),
            ("VOP 1 5 1 9", "V 61"),
            ("VOP 1 5 1", "V 60"),
        ],
    );
}

#[test]
fn an_edge_made_again_is_nil() {
    let before = [
        "CUN 1",
        "COP 1 5 1",
        "BOP 1 5 1 60",
        "DOP 1 5 1",
        "COP 1 5 1",
    ];
    check_after(&before, &[("VOP 1 5 1", "V 0")]);
}

#[test]
fn cap_one_record_short_adds_nothing() {
    // 1 + 1 + 4 tuples are present; CAP in the space would add four.
    let nodes = [
        ("CUS 9", "= 9 +1"),
        ("CUN 1 9", "= 1 +2"),
        ("CUN 2 9", "= 2 +2"),
    ];
    let mut short = nodes.to_vec();
    short.push(("CAP 1 5 2 9", "R 10"));
    assert_eq!(check_with(9, 2048, &short).tuples().count(), 6);
    let mut enough = nodes.to_vec();
    enough.push(("CAP 1 5 2 9", "= 1 +4"));
    assert_eq!(check_with(10, 2048, &enough).tuples().count(), 10);
}

#[test]
fn cap_of_a_loop_in_a_space_adds_two() {
    let lines = [
        ("CUS 9", "= 9 +1"),
        ("CUN 1 9", "= 1 +2"),
        ("CAP 1 5 1 9", "= 1 +2"),
    ];
    assert_eq!(check_with(6, 2048, &lines).tuples().count(), 6);
    let refused = [
        ("CUS 9", "= 9 +1"),
        ("CUN 1 9", "= 1 +2"),
        ("CAP 1 5 1 9", "R 10"),
    ];
    assert_eq!(check_with(5, 2048, &refused).tuples().count(), 4);
}

#[test]
fn a_create_needs_records_only_for_what_is_missing() {
    // Node 1 is in UNIVERSE already: one record is enough for space 9.
    let lines = [
        ("CUS 9", "= 9 +1"),
        ("CUN 1", "= 1 +1"),
        ("CUN 1 9", "= 1 +1"),
    ];
    check_with(4, 2048, &lines);
}

#[test]
fn names_of_different_sorts_have_nothing_in_common() {
    let before = ["CUS 5", "CUN 5", "COP 5 5 5"];
    check_after(
        &before,
        &[
            ("SUN 5", "L 0"),
            ("DUS 5", "= 5 -1"),
            ("XUN 5", "T"),
            ("XOP 5 5 5", "T"),
            ("CUN 5", "= 5 +0"),
            ("DOP 5 5 5", "= 5 -1"),
            ("XUN 5", "T"),
            ("XUS 5", "NIL"),
        ],
    );
}

#[test]
fn dun_of_a_node_keeps_edges_with_that_edge_name() {
    let before = ["CUN 1", "CUN 2", "COP 2 1 2"];
    check_after(&before, &[("DUN 1", "= 1 -1"), ("SAP 2", "L 1 1:2")]);
}

#[test]
fn the_greatest_names_work() {
    let before = [
        "CUS 65535",
        "CUN 65535 65535",
        "CAP 65535 65535 65535 65535",
    ];
    check_after(
        &before,
        &[
            ("SAP 65535 65535", "L 1 65535:65535"),
            ("BAP 65535 65535 65535 4294967295 65535", "= 65535"),
            ("VOP 65535 65535 65535 65535", "V 4294967295"),
            ("VOP 65535 65535 65535", "V 0"),
        ],
    );
}

#[test]
fn a_removal_in_a_space_leaves_universe() {
    // Even where no other space holds the tuple.
    let before = ["CUS 9", "CUN 1 9", "COP 1 5 1 9", "DUN 1 9"];
    check_after(
        &before,
        &[("SUN", "L 1 0:1"), ("SAP 1", "L 1 5:1"), ("SUN 9", "L 0")],
    );
}

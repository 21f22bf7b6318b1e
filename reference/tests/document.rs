//! The examples of document 01: its table, its dropped stitches, (a) to (j),
//! with the numbers of request 2.

mod common;

use common::{check, check_after, check_with, printed, state};

#[test]
fn the_sixteen_lines() {
    let input = "CUN 1\nCUN 2\nCUS 9\nSUN 9\nSUN\nCUN 1 9\nCOP 1 5 2 9\nCOP 1 5 2\n\
                 BOP 1 5 2 60\nVOP 1 5 2\nVOP 1 5 2 9\nDUN 1\nSUN\nXUN 1 9\nDUS U\nCUN 0\n";
    let output = "= 1 +1\n= 2 +1\n= 9 +1\nL 0\nL 2 0:1 0:2\n= 1 +1\nR 7\n= 1 +1\n\
                  = 1\nV 60\nR 7\n= 1 -3\nL 1 0:2\nNIL\nR 4\nR 3\n";
    assert_eq!(printed(input.as_bytes()), output);
}

#[test]
fn a_no_room_for_a_node() {
    let machine = check_with(1, 2048, &[("CUN 1", "R 10")]);
    assert_eq!(state(&machine), [(0, 0, 0, 0, 0)]);
}

#[test]
fn b_a_freed_record_is_taken_again() {
    let machine = check_with(
        2,
        2048,
        &[
            ("CUN 1", "= 1 +1"),
            ("DUN 1", "= 1 -1"),
            ("CUS 9", "= 9 +1"),
        ],
    );
    assert_eq!(state(&machine), [(0, 0, 0, 0, 0), (9, 0, 0, 0, 0)]);
}

#[test]
fn c_a_node_in_a_space_needs_two_records() {
    let machine = check_with(3, 2048, &[("CUS 9", "= 9 +1"), ("CUN 1 9", "R 10")]);
    assert_eq!(state(&machine), [(0, 0, 0, 0, 0), (9, 0, 0, 0, 0)]);
}

#[test]
fn d_and_has_them() {
    let machine = check_with(4, 2048, &[("CUS 9", "= 9 +1"), ("CUN 1 9", "= 1 +2")]);
    let expected = [
        (0, 0, 0, 0, 0),
        (0, 1, 0, 0, 0),
        (9, 0, 0, 0, 0),
        (9, 1, 0, 0, 0),
    ];
    assert_eq!(state(&machine), expected);
}

#[test]
fn e_cap_of_a_loop_adds_one_tuple_in_universe() {
    let machine = check(&[("CUN 1", "= 1 +1"), ("CAP 1 5 1", "= 1 +1")]);
    let expected = [(0, 0, 0, 0, 0), (0, 1, 0, 0, 0), (0, 1, 5, 1, 0)];
    assert_eq!(state(&machine), expected);
    // One free record is enough.
    check_with(3, 2048, &[("CUN 1", "= 1 +1"), ("CAP 1 5 1", "= 1 +1")]);
}

#[test]
fn f_cap_in_a_space_adds_four() {
    let before = ["CUS 9", "CUN 1 9", "CUN 2 9"];
    let machine = check_after(&before, &[("CAP 1 5 2 9", "= 1 +4")]);
    let expected = [
        (0, 0, 0, 0, 0),
        (0, 1, 0, 0, 0),
        (0, 1, 5, 2, 0),
        (0, 2, 0, 0, 0),
        (0, 2, 5, 1, 0),
        (9, 0, 0, 0, 0),
        (9, 1, 0, 0, 0),
        (9, 1, 5, 2, 0),
        (9, 2, 0, 0, 0),
        (9, 2, 5, 1, 0),
    ];
    assert_eq!(state(&machine), expected);
}

#[test]
fn g_don_with_only_a_loop() {
    let before = ["CUN 1", "COP 1 5 1"];
    let machine = check_after(&before, &[("DON 1", "= 1 -2"), ("SUN", "L 0")]);
    assert_eq!(state(&machine), [(0, 0, 0, 0, 0)]);
}

#[test]
fn h_dun_of_no_node() {
    check(&[("DUN 7", "= 7 -0")]);
}

#[test]
fn i_cus_on_universe() {
    let machine = check(&[("CUS U", "= 0 +0")]);
    assert_eq!(state(&machine), [(0, 0, 0, 0, 0)]);
}

#[test]
fn j_a_list_without_places() {
    check_with(
        2048,
        0,
        &[
            ("SUN", "L 0"),
            ("CUN 1", "= 1 +1"),
            ("SUN", "R 9"),
            ("SOP 1", "L 0"),
            ("COP 1 5 1", "= 1 +1"),
            ("SOP 1", "R 9"),
            ("SUS", "R 9"),
            ("SUS 1", "R 9"),
        ],
    );
}

#[test]
fn an_empty_space_is_not_universe() {
    check(&[("CUN 1", "= 1 +1"), ("CUS 9", "= 9 +1"), ("SUN 9", "L 0")]);
}

#[test]
fn dun_in_a_space_takes_the_edges_there() {
    let before = ["CUS 9", "CUN 1 9", "CUN 2 9", "CAP 1 5 2 9", "COP 2 6 2 9"];
    let machine = check_after(&before, &[("DUN 1 9", "= 1 -3"), ("SAP 2 9", "L 1 6:2")]);
    let expected = [
        (0, 0, 0, 0, 0),
        (0, 1, 0, 0, 0),
        (0, 1, 5, 2, 0),
        (0, 2, 0, 0, 0),
        (0, 2, 5, 1, 0),
        (0, 2, 6, 2, 0),
        (9, 0, 0, 0, 0),
        (9, 2, 0, 0, 0),
        (9, 2, 6, 2, 0),
    ];
    assert_eq!(state(&machine), expected);
}

#[test]
fn don_collects_before_it_removes() {
    let before = [
        "CUN 1",
        "CUN 2",
        "CUN 3",
        "CUN 4",
        "COP 1 5 1",
        "COP 1 5 2",
        "COP 1 6 3",
    ];
    check_after(&before, &[("DON 1", "= 1 -6"), ("SUN", "L 1 0:4")]);
}

#[test]
fn don_needs_its_node_in_the_space() {
    let before = ["CUN 1", "CUN 2", "COP 1 5 2", "CUS 9", "CUN 2 9"];
    check_after(
        &before,
        &[
            ("DON 1 9", "R 6"),
            ("DAN 1 9", "R 6"),
            ("DONG 1 5 9", "R 6"),
        ],
    );
}

#[test]
fn dogg_removes_the_named_edges_only() {
    let before = ["CUN 1", "CUN 2", "COP 1 5 2", "COP 1 6 2", "COP 1 5 1"];
    check_after(&before, &[("DOGG 1 5", "= 1 -2"), ("SOP 1", "L 1 6:2")]);
}

#[test]
fn xap_looks_for_the_edge_from_m_to_n() {
    let nodes = ["CUN 1", "CUN 2"];
    check_after(&nodes, &[("CIP 1 5 2", "= 1 +1"), ("XAP 1 5 2", "T")]);
    // A loop on 1 or on 2 is no pair of 1 and 2.
    check_after(&nodes, &[("COP 1 5 1", "= 1 +1"), ("XAP 1 5 2", "NIL")]);
    check_after(&nodes, &[("COP 2 5 2", "= 2 +1"), ("XAP 1 5 2", "NIL")]);
}

#[test]
fn cap_adds_both_or_nothing() {
    let machine = check_with(
        4,
        2048,
        &[
            ("CUN 1", "= 1 +1"),
            ("CUN 2", "= 2 +1"),
            ("CAP 1 5 2", "R 10"),
            ("SAP 1", "L 0"),
            ("COP 1 5 2", "= 1 +1"),
            ("CAP 1 5 2", "R 10"),
        ],
    );
    assert_eq!(machine.tuples().count(), 4);
}

//! How lines are read.

mod common;

use common::{check, check_after, printed};

/// Checks that each of these lines is refused 11.
fn unreadable(lines: &[&[u8]]) {
    for line in lines {
        assert_eq!(
            printed(line),
            "R 11\n",
            "{:?}",
            line.escape_ascii().to_string()
        );
    }
}

#[test]
fn letters_are_capitals() {
    unreadable(&[b"cun 1", b"Cun 1", b"CUn 1", b"sus", b"SUN u"]);
}

#[test]
fn unknown_letters() {
    unreadable(&[
        b"X",
        b"CU",
        b"CUNN 1",
        b"SOGG 1 5",
        b"56",
        b"45 1",
        b"NIL",
        b"U",
        b"1",
    ]);
}

#[test]
fn vap_is_unreadable() {
    unreadable(&[b"VAP", b"VAP 1 5 2", b"VAP 1 5 2 9", b"VAP 1 5 2 U"]);
}

#[test]
fn leading_zeros_are_unreadable() {
    unreadable(&[
        b"CUN 01",
        b"CUN 00",
        b"BUN 1 00",
        b"BUN 1 007",
        b"SUN 09",
        b"BUS U 0000000001",
    ]);
    check(&[("CUN 0", "R 3"), ("CUN 1", "= 1 +1"), ("BUN 1 0", "= 1")]);
}

#[test]
fn signs_and_other_marks_are_unreadable() {
    unreadable(&[
        b"CUN +1",
        b"CUN -1",
        b"CUN -0",
        b"CUN 1.0",
        b"CUN 1,000",
        b"CUN 0x1",
        b"CUN 1e1",
        b"CUN '1",
        b"BUN 1 -5",
        b"BUN 1 NIL",
        b"CUN one",
        b"CUN 1_0",
    ]);
}

#[test]
fn blanks_stand_only_before_arguments() {
    unreadable(&[
        b" CUN 1",
        b"CUN  1",
        b"CUN 1 ",
        b"CUN 1  9",
        b" ",
        b"  ",
        b"SUN ",
        b"SUS ",
        b" SUS",
        b"CUN1",
        b"CUN ",
        b"CUN 1 U ",
    ]);
}

#[test]
fn tabs_and_carriage_returns_are_unreadable() {
    unreadable(&[
        b"CUN\t1",
        b"CUN 1\t",
        b"\tCUN 1",
        b"CUN 1\r",
        b"SUS\r",
        b"\r",
        b"CUN 1\x0b",
        b"CUN\x0c1",
    ]);
    assert_eq!(printed(b"CUN 1\r\nSUN\r\nSUN\n"), "R 11\nR 11\nL 0\n");
}

#[test]
fn nul_and_high_bytes_are_unreadable() {
    unreadable(&[
        b"\0",
        b"CUN\0 1",
        b"CUN 1\0",
        b"\0CUN 1",
        b"CUN \xff",
        b"CUN \xc2\xa01",
        b"CUN\xa01",
        b"\xef\xbb\xbfCUN 1",
        b"CUN \xd9\xa1",
        b"CUN \xb9",
        b"\xc3UN 1",
    ]);
}

#[test]
fn too_few_arguments() {
    unreadable(&[
        b"COP",
        b"COP 1",
        b"COP 1 5",
        b"BOP 1 5 2",
        b"VOP 1 5",
        b"DOG",
        b"DOGG 1",
        b"DOGN 1",
        b"DON",
        b"DONG 1",
        b"SOP",
        b"SOGN 1",
        b"SON",
        b"SONG 1",
        b"CUN",
        b"BUN",
        b"BUN 1",
        b"VUN",
        b"CUS",
        b"BUS",
        b"BUS 9",
        b"VUS",
        b"XUS",
        b"DUS",
    ]);
}

#[test]
fn too_many_arguments() {
    unreadable(&[
        b"COP 1 5 2 9 9",
        b"BOP 1 5 2 60 9 9",
        b"DOG 1 9 9",
        b"DOGG 1 5 9 9",
        b"CUN 1 9 9",
        b"BUN 1 60 9 9",
        b"SUN 9 9",
        b"CUS 9 9",
        b"BUS 9 60 9",
        b"VUS 9 9",
        b"XUS 9 9",
        b"DUS 9 9",
        b"SUS 1 9",
    ]);
}

#[test]
fn each_operator_takes_its_arguments() {
    let nodes = ["CUN 1", "CUN 2"];
    let with_four = [
        "COP", "CIP", "CAP", "XOP", "XIP", "XAP", "DOP", "DIP", "DAP",
    ];
    for letters in with_four {
        let answer = match letters.as_bytes() {
            [b'X', ..] => "NIL",
            [b'D', ..] => "= 1 -0",
            b"CAP" => "= 1 +2",
            _ => "= 1 +1",
        };
        let short = format!("{letters} 1 5 2");
        let long = format!("{letters} 1 5 2 U");
        let longer = format!("{letters} 1 5 2 U U");
        check_after(&nodes, &[(&short, answer), (&longer, "R 11")]);
        check_after(&nodes, &[(&long, answer)]);
    }
    for letters in ["VOP", "VIP"] {
        let (short, long) = (format!("{letters} 1 5 2"), format!("{letters} 1 5 2 U"));
        check_after(&nodes, &[(&short, "R 8"), (&long, "R 8")]);
    }
    for letters in ["BOP", "BIP", "BAP"] {
        let (short, long) = (format!("{letters} 1 5 2 0"), format!("{letters} 1 5 2 0 U"));
        check_after(&nodes, &[(&short, "R 8"), (&long, "R 8")]);
    }
}

#[test]
fn numbers_past_their_range_are_unreadable() {
    unreadable(&[
        b"CUN 65536",
        b"CUN 1 65536",
        b"COP 1 65536 2",
        b"COP 1 5 65536",
        b"CUS 65536",
        b"SUS 65536",
        b"CUN 100000",
        b"CUN 65537",
        b"CUN 131073",
        b"CUN 4294967297",
        b"BUN 1 4294967296",
        b"BUS U 4294967296",
        b"BUN 1 4294967297",
        b"BUN 1 18446744073709551616",
        b"BUN 1 18446744073709551617",
        b"CUN 1000000000000000000000000000000000000001",
        b"BUN 1 1000000000000000000000000000000000000001",
        b"BUN 1 9999999999999999999999999999999999999999",
        b"BUN 1 0000000000000000000000000000000000000000",
    ]);
    check(&[
        ("CUN 65535", "= 65535 +1"),
        ("BUN 65535 4294967295", "= 65535"),
        ("VUN 65535", "V 4294967295"),
        ("CUS 65535", "= 65535 +1"),
    ]);
}

#[test]
fn u_stands_only_for_a_space() {
    unreadable(&[
        b"CUN U",
        b"SUS U",
        b"COP U 5 2",
        b"COP 1 U 2",
        b"COP 1 5 U",
        b"BUN 1 U",
        b"BUS U U",
        b"BUN U 5",
        b"CUN 1 UU",
        b"CUN 1 U1",
        b"CUN 1 UNIVERSE",
    ]);
    check(&[
        ("CUN 1 U", "= 1 +1"),
        ("SUN U", "L 1 0:1"),
        ("XUN 1 U", "T"),
        ("CUS U", "= 0 +0"),
        ("BUS U 7", "= 0"),
        ("VUS U", "V 7"),
        ("XUS U", "T"),
        ("DUS U", "R 4"),
    ]);
}

#[test]
fn nothing_stands_only_for_a_space() {
    unreadable(&[
        b"-",
        b"SUS -",
        b"SUS 1 -",
        b"CUN -",
        b"CUN - -",
        b"CUN - 9",
        b"COP - 5 2",
        b"COP 1 - 2",
        b"COP 1 5 -",
        b"COP - - - -",
        b"BOP 1 5 2 -",
        b"BOP 1 5 2 - -",
        b"BUN 1 -",
        b"BUN 1 - -",
        b"BUS - -",
        b"BUS 9 -",
        b"DOGG 1 -",
        b"DOGG 1 - -",
        b"SOGN 1 -",
        b"SOGN - 2 -",
    ]);
}

#[test]
fn nothing_is_one_byte_and_one_word() {
    unreadable(&[
        b"SUN --",
        b"SUN - -",
        b"SUN -1",
        b"SUN 1-",
        b"SUN -0",
        b"SUN -U",
        b"SUN U-",
        b"SUN-",
        b"SUN  -",
        b"SUN - ",
        b"SUN -\r",
        b"SUN -\0",
        b"SUN - U",
        b"SUN U -",
        b"SUN 9 -",
        b"SUN - 9",
        b"SUN +",
        b"SUN _",
        b"SUN \xe2\x88\x92",
        b"SUN \xe2\x80\x93",
        b"CUN 1-",
        b"CUN 1 --",
        b"COP 1 5 2-",
        b"COP 1 5 2 -9",
        b"CUS --",
        b"CUS -9",
        b"CUS",
        b"BUS -",
        b"BUS -7",
        b"DUS - -",
    ]);
}

#[test]
fn nothing_is_read_where_a_space_stands() {
    check(&[
        ("SUN -", "L 0"),
        ("CUN 1 -", "= 1 +0"),
        ("XUN 1 -", "NIL"),
        ("VUN 1 -", "R 12"),
        ("CUS -", "R 12"),
        ("BUS - 7", "R 12"),
        ("VUS -", "R 12"),
        ("XUS -", "R 12"),
        ("DUS -", "R 12"),
        // Left out, it is still UNIVERSE.
        ("CUN 1", "= 1 +1"),
        ("XUN 1", "T"),
    ]);
}

#[test]
fn empty_input_and_empty_lines() {
    assert_eq!(printed(b""), "");
    assert_eq!(printed(b"\n"), "R 11\n");
    assert_eq!(printed(b"\n\n"), "R 11\nR 11\n");
    assert_eq!(printed(b"CUN 1\n\nSUN\n"), "= 1 +1\nR 11\nL 1 0:1\n");
}

#[test]
fn the_last_line_may_lack_its_line_feed() {
    assert_eq!(printed(b"CUN 1"), "= 1 +1\n");
    assert_eq!(printed(b"CUN 1\n"), "= 1 +1\n");
    assert_eq!(printed(b"CUN 1\nSUN"), "= 1 +1\nL 1 0:1\n");
}

#[test]
fn an_unreadable_line_changes_nothing() {
    check(&[
        ("CUN 1", "= 1 +1"),
        ("DUN 1 9 9", "R 11"),
        ("DUN 1 ", "R 11"),
        ("SUN", "L 1 0:1"),
    ]);
}

#[test]
fn the_greatest_script_runs() {
    let script = b"SUS\n".repeat(16_384);
    assert_eq!(script.len(), 65_536);
    assert_eq!(printed(&script), "L 1 0:0\n".repeat(16_384));
    let without_last_end = &script[..65_535];
    assert_eq!(printed(without_last_end), "L 1 0:0\n".repeat(16_384));
}

#[test]
fn a_greater_script_prints_one_line() {
    let mut script = b"SUS\n".repeat(16_384);
    script.push(b'\n');
    assert_eq!(printed(&script), "R 11\n");
    assert_eq!(printed(&vec![b'x'; 65_537]), "R 11\n");
    assert_eq!(printed(&vec![b'\n'; 1_000_000]), "R 11\n");
}

#[test]
fn long_lines_and_many_lines() {
    assert_eq!(printed(&vec![b'9'; 65_536]), "R 11\n");
    assert_eq!(printed(&vec![b'\n'; 65_536]), "R 11\n".repeat(65_536));
    let mut digits = b"BUN 1 1".to_vec();
    digits.resize(65_536, b'0');
    assert_eq!(printed(&digits), "R 11\n");
}

#[test]
fn the_store_of_slips_has_2048_records() {
    let mut script = String::new();
    for node in 1..=2048 {
        script.push_str(&format!("CUN {node}\n"));
    }
    script.push_str("SUN\nDUN 7\nCUN 2048\nCUN 2049\n");
    let output = printed(script.as_bytes());
    let answers: Vec<&str> = output.lines().collect();
    assert_eq!(answers[2046], "= 2047 +1");
    assert_eq!(answers[2047], "R 10");
    assert!(answers[2048].starts_with("L 2047 0:1 0:2 "));
    assert!(answers[2048].ends_with(" 0:2047"));
    assert_eq!(answers[2049..], ["= 7 -1", "= 2048 +1", "R 10"]);
}

//! The program and its options.

use std::io::Write;
use std::process::{Command, Output, Stdio};

fn run(options: &[&str], input: &[u8]) -> Output {
    let mut child = Command::new(env!("CARGO_BIN_EXE_gaffdamson-reference"))
        .args(options)
        .stdin(Stdio::piped())
        .stdout(Stdio::piped())
        .stderr(Stdio::piped())
        .spawn()
        .expect("the program starts");
    let mut stdin = child.stdin.take().expect("its input is open");
    // The program may stop reading early.
    let _ = stdin.write_all(input);
    drop(stdin);
    child.wait_with_output().expect("the program ends")
}

/// Checks that a run ends well and prints this.
fn check(options: &[&str], input: &str, expected: &str) {
    let output = run(options, input.as_bytes());
    assert!(output.status.success());
    assert_eq!(String::from_utf8_lossy(&output.stdout), expected);
}

#[test]
fn a_script_runs() {
    check(&[], "CUN 1\nSUN\nx\n", "= 1 +1\nL 1 0:1\nR 11\n");
    check(&[], "", "");
}

#[test]
fn a_script_that_is_too_long_prints_one_line() {
    let output = run(&[], &vec![b'\n'; 65_537]);
    assert!(output.status.success());
    assert_eq!(output.stdout, b"R 11\n");
    let output = run(&[], &vec![b'\n'; 65_536]);
    assert_eq!(output.stdout, b"R 11\n".repeat(65_536));
}

#[test]
fn capacity_and_list_length() {
    check(&["--capacity", "1"], "CUN 1\n", "R 10\n");
    check(&["--capacity", "100000"], "CUN 1\n", "= 1 +1\n");
    check(
        &["--list-length", "0"],
        "SUN\nCUN 1\nSUN\n",
        "L 0\n= 1 +1\nR 9\n",
    );
}

#[test]
fn raw_calls() {
    let input = "45 1 0 0 0 U 0\n0 1 1 1 1 U 1\n4294967295 0 0 0 0 0 0\n46 1 0 0 4294967295 U 0\n\
                 47 1 9 9 9 U 0\n50 0 0 0 0 U 0\n50 0 0 0 0 U 1\n50 0 0 0 0 0 1\n48 2 0 0 0 U 0\n";
    let expected = "= 1 +1\nR 2\nR 2\n= 1\nV 4294967295\nR 9\nL 1 0:1\nR 3\nNIL\n";
    check(&["--raw"], input, expected);
}

#[test]
fn the_final_state() {
    let expected = "= 9 +1\n= 1 +2\n= 1\n# 0 0 0 0 0\n# 0 1 0 0 0\n# 9 0 0 0 0\n# 9 1 0 0 7\n";
    check(&["--tuples"], "CUS 9\nCUN 1 9\nBUN 1 7 9", expected);
    let raw = "45 3 0 0 0 U 0\n";
    check(
        &["--raw", "--tuples"],
        raw,
        "= 3 +1\n# 0 0 0 0 0\n# 0 3 0 0 0\n",
    );
}

#[test]
fn buffers_are_checked() {
    check(
        &["--check-buffer"],
        "1 1 0 1\n0 0 0 0 0 7\n",
        "store\n# 0 0 0 0 7\n",
    );
    check(&["--check-buffer"], "1 1 0 2 0 0 0 0 0 7", "not a store\n");
    check(&["--check-buffer"], "", "not a store\n");
}

#[test]
fn bad_options_get_the_usage() {
    let cases: [&[&str]; 9] = [
        &["--unknown"],
        &["file"],
        &["--capacity"],
        &["--capacity", "x"],
        &["--capacity", "0"],
        &["--capacity", "-1"],
        &["--list-length"],
        &["--list-length", "1.5"],
        &["--raw", "--check-buffer"],
    ];
    for options in cases {
        let output = run(options, b"");
        assert_eq!(output.status.code(), Some(2), "{options:?}");
        assert!(output.stdout.is_empty());
        assert!(String::from_utf8_lossy(&output.stderr).contains("usage:"));
    }
}

#[test]
fn bad_raw_lines_and_words_end_the_run() {
    let output = run(&["--raw"], b"45 1 0 0 0 U 0\nCUN 1\n");
    assert_eq!(output.status.code(), Some(2));
    assert_eq!(output.stdout, b"= 1 +1\n");
    let output = run(&["--check-buffer"], b"1 1 0 1 0 0 0 0 0 4294967296");
    assert_eq!(output.status.code(), Some(2));
}

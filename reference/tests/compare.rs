//! The comparing program, with a right program and with wrong ones.

use std::env;
use std::fs;
use std::os::unix::fs::PermissionsExt;
use std::path::{Path, PathBuf};
use std::process::{self, Command};

use gaffdamson_reference::compare::tally::Tally;
use gaffdamson_reference::random::scripts;
use gaffdamson_reference::script;

const RIGHT: &str = env!("CARGO_BIN_EXE_gaffdamson-reference");

/// A folder of its own for a test.
fn folder(name: &str) -> PathBuf {
    let folder = env::temp_dir().join(format!("compare-{name}-{}", process::id()));
    fs::create_dir_all(&folder).expect("the folder can be made");
    folder
}

/// A program that changes what the right one prints.
fn wrong_program(folder: &Path, filter: &str) -> PathBuf {
    let program = folder.join("wrong");
    fs::write(&program, format!("#!/bin/sh\n{RIGHT} | {filter}\n")).expect("it can be written");
    let mode = fs::Permissions::from_mode(0o755);
    fs::set_permissions(&program, mode).expect("it can be made a program");
    program
}

/// The exit code, the last line, and how many scripts were kept.
fn compared(folder: &Path, program: &Path, scripts: &[&str]) -> (Option<i32>, String, usize) {
    let kept = folder.join("kept");
    fs::create_dir_all(&kept).expect("the folder can be made");
    let output = Command::new(env!("CARGO_BIN_EXE_compare-scripts"))
        .args([program, &kept])
        .args(scripts)
        .output()
        .expect("the program starts");
    let text = String::from_utf8_lossy(&output.stdout).into_owned();
    let last = text.lines().last().unwrap_or_default().to_string();
    let count = fs::read_dir(&kept).expect("the folder can be read").count();
    fs::remove_dir_all(folder).expect("the folder can be removed");
    (output.status.code(), last, count)
}

#[test]
fn a_right_program_passes() {
    let found = compared(&folder("right"), Path::new(RIGHT), &["random", "60", "1"]);
    assert_eq!(found, (Some(0), "60 passed, 0 failed".to_string(), 0));
}

/// A right program whose output goes through a filter fails more than so many
/// of sixty scripts.
fn filtered_program_fails(name: &str, filter: &str, least: usize) {
    let folder = folder(name);
    let wrong = wrong_program(&folder, filter);
    let (code, last, kept) = compared(&folder, &wrong, &["random", "60", "1"]);
    assert_eq!(code, Some(1));
    assert!(kept > least, "{last}");
    assert_eq!(last, format!("{} passed, {kept} failed", 60 - kept));
}

#[test]
fn a_program_that_drops_the_last_line_fails() {
    filtered_program_fails("last", "sed '$d'", 50);
}

#[test]
fn a_program_with_one_wrong_answer_fails() {
    filtered_program_fails("one", "sed '30s/^.*$/R 13/'", 40);
}

#[test]
fn a_program_that_leaves_out_a_number_fails() {
    filtered_program_fails("no-number", "sed 's/ +0$//'", 30);
}

#[test]
fn a_program_with_a_wrong_sign_fails() {
    filtered_program_fails("sign", "sed 's/ -0$/ +0/'", 20);
}

#[test]
fn nothing_is_compared_without_a_program_or_scripts() {
    let missing = Path::new("/missing/slips");
    let (code, last, _) = compared(&folder("missing"), missing, &["random", "3", "1"]);
    assert_eq!(code, Some(2));
    assert!(last.starts_with("no comparison: "), "{last}");
    for words in [&["random", "0", "1"][..], &["random", "3"], &["files"], &[]] {
        let (code, ..) = compared(&folder("words"), Path::new(RIGHT), words);
        assert_eq!(code, Some(2), "{words:?}");
    }
}

#[test]
fn files_are_compared() {
    let folder = folder("files");
    let file = folder.join("some.script");
    fs::write(&file, "CUN 1\nSUN").expect("the file can be written");
    let words = ["files", &file.display().to_string()];
    let found = compared(&folder, Path::new(RIGHT), &words);
    assert_eq!(found, (Some(0), "1 passed, 0 failed".to_string(), 0));
}

#[test]
fn everything_occurs_in_random_scripts() {
    let mut tally = Tally::default();
    for place in 1..=300 {
        let input = scripts::nth(1, place);
        tally.add(&input, &script::printed(&input));
    }
    let kinds = [
        "=", "= +", "= +0", "= -", "= -0", "L", "NIL", "R 10", "R 11", "R 12", "R 3", "R 4", "R 5",
        "R 6", "R 7", "R 8", "T", "V",
    ];
    assert_eq!(tally.kinds(), kinds);
    assert_eq!(tally.operators(), (1..=57).collect::<Vec<u32>>());
    let (mostly_answered, all) = tally.mostly_answered();
    assert!(4 * mostly_answered > 3 * all, "{mostly_answered} of {all}");
}

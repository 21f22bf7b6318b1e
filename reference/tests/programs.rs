//! The program crates' files: each `stdout` is what this implementation
//! prints for the `stdin` beside it.

mod common;

use std::fs;
use std::path::{Path, PathBuf};

use common::printed;
use gaffdamson_reference::inputs;

const NAMES: [&str; 11] = [
    "slips",
    "slips_blocks",
    "slips_empty",
    "slips_exact",
    "slips_full",
    "slips_manual",
    "slips_nothing",
    "slips_over",
    "slips_panel",
    "slips_refusals",
    "slips_unreadable",
];

fn top() -> PathBuf {
    Path::new(env!("CARGO_MANIFEST_DIR")).join("..")
}

fn read(file: &Path) -> Vec<u8> {
    fs::read(file).unwrap_or_else(|error| panic!("{}: {error}", file.display()))
}

#[test]
fn each_output_is_that_of_the_input() {
    let folders = inputs::folders(&top()).expect("the folders can be read");
    for folder in &folders {
        let output = printed(&read(&folder.join("stdin")));
        let is_right = output.as_bytes() == read(&folder.join("stdout"));
        assert!(is_right, "{}: run write-outputs", folder.display());
    }
    for name in NAMES {
        let is_there = folders.iter().any(|folder| folder.ends_with(name));
        assert!(is_there, "{name} has no input");
    }
}

#[test]
fn each_input_is_what_is_written_for_it() {
    for (name, input) in inputs::all(&top()).expect("the examples can be read") {
        let file = inputs::folder(&top(), name).join("stdin");
        let is_right = input == read(&file);
        assert!(is_right, "{}: run write-inputs", file.display());
    }
}

#[test]
fn the_input_of_slips_is_the_table_of_document_01() {
    let table = "CUN 1\nCUN 2\nCUS 9\nSUN 9\nSUN\nCUN 1 9\nCOP 1 5 2 9\nCOP 1 5 2\n\
                 BOP 1 5 2 60\nVOP 1 5 2\nVOP 1 5 2 9\nDUN 1\nSUN\nXUN 1 9\nDUS U\nCUN 0\n";
    let folder = inputs::folder(&top(), "slips");
    assert_eq!(read(&folder.join("stdin")), table.as_bytes());
    let answers = "= 1 +1\n= 2 +1\n= 9 +1\nL 0\nL 2 0:1 0:2\n= 1 +1\nR 7\n= 1 +1\n\
                   = 1\nV 60\nR 7\n= 1 -3\nL 1 0:2\nNIL\nR 4\nR 3\n";
    assert_eq!(read(&folder.join("stdout")), answers.as_bytes());
}

#[test]
fn lengths() {
    let length = |name| read(&inputs::folder(&top(), name).join("stdin")).len();
    assert_eq!(length("slips_empty"), 0);
    assert_eq!(length("slips_exact"), 65_536);
    assert_eq!(length("slips_over"), 65_537);
}

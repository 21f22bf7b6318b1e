//! The numbers that the interface for C and Rust gives names.

use std::collections::BTreeMap;
use std::fs;
use std::path::Path;

use gaffdamson_reference::{operators, packed};

/// The names with their numbers that stand in a file, on lines of their own.
fn names(file: &str, prefix: &str, between: &str, end: &[char]) -> BTreeMap<String, u32> {
    let path = Path::new(env!("CARGO_MANIFEST_DIR"))
        .join("../interface")
        .join(file);
    let text = fs::read_to_string(&path).expect("the file can be read");
    let name_and_number = |line: &str| {
        let (name, number) = line.trim().strip_prefix(prefix)?.split_once(between)?;
        let number = number.trim_end_matches(end).parse().ok()?;
        Some((name.to_string(), number))
    };
    text.lines().filter_map(name_and_number).collect()
}

fn names_for_c() -> BTreeMap<String, u32> {
    names("gaffdamson.h", "GAFFDAMSON_", " = ", &[','])
}

fn check_operators(names: &BTreeMap<String, u32>) {
    for operator in 1..=56 {
        let letters = operators::letters(operator).expect("an operator");
        assert_eq!(names.get(letters), Some(&operator), "{letters}");
    }
    assert_eq!(names.get("SUS_OF_NODE"), Some(&57));
}

#[test]
fn operators_have_their_numbers() {
    check_operators(&names_for_c());
    let names = names("rust/src/operator.rs", "pub const ", ": u32 = ", &[';']);
    check_operators(&names);
    assert_eq!(names.len(), 57);
}

#[test]
fn refusals_have_the_same_names_for_c_and_rust() {
    let end = &[';', ')'];
    let for_rust = names(
        "rust/src/answer.rs",
        "pub const ",
        ": Refusal = Refusal(",
        end,
    );
    let mut numbers: Vec<u32> = for_rust.values().copied().collect();
    numbers.sort_unstable();
    assert!(numbers.into_iter().eq((1..=10).chain([12])));
    let for_c = names_for_c();
    for (name, number) in &for_rust {
        assert_eq!(for_c.get(name), Some(number), "{name}");
    }
}

#[test]
fn values_and_spaces_have_the_same_forms_for_c_and_rust() {
    let for_c = names_for_c();
    let for_rust = names("rust/src/words.rs", "const ", ": u32 = ", &[';']);
    let forms = [
        ("NIL", 0),
        ("NUMBER", 1),
        ("UNIVERSE", 0),
        ("NUMBERED", 1),
        ("NOTHING", 2),
    ];
    for (name, form) in forms {
        assert_eq!(for_c.get(name), Some(&form), "{name}");
        assert_eq!(for_rust.get(name), Some(&form), "{name}");
    }
    assert_eq!(for_rust.len(), forms.len());
}

#[test]
fn answers_have_the_same_kinds_for_c_and_rust() {
    let for_c = names_for_c();
    let for_rust = names("rust/src/answer.rs", "const ", ": u32 = ", &[';']);
    let kinds = [
        "REFUSAL", "NAME", "VALUE", "YES_NO", "LIST", "CAPACITY", "ADDED", "REMOVED",
    ];
    for (name, kind) in kinds.into_iter().zip(0..) {
        assert_eq!(for_c.get(name), Some(&kind), "{name}");
        assert_eq!(for_rust.get(name), Some(&kind), "{name}");
    }
    assert_eq!(for_rust.len(), kinds.len());
}

#[test]
fn calls_and_answers_have_the_same_words_for_c_and_rust() {
    let for_c = names_for_c();
    let for_rust = names("rust/src/words.rs", "pub const ", ": usize = ", &[';']);
    for (name, words) in [
        ("WORDS_IN_A_CALL", packed::WORDS_IN_A_CALL),
        ("WORDS_IN_AN_ANSWER", packed::WORDS_IN_AN_ANSWER),
    ] {
        let words = words as u32;
        assert_eq!(for_c.get(name), Some(&words), "{name}");
        assert_eq!(for_rust.get(name), Some(&words), "{name}");
    }
}

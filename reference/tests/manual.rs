//! The manual's examples (GRASPER 1.0, 1978), translated to scripts: each
//! `manual/**/*.script` prints what the `.expected` file beside it holds.

mod common;

use std::fs;
use std::path::{Path, PathBuf};

use common::printed;

/// All files below a folder.
fn files_below(folder: &Path) -> Vec<PathBuf> {
    let mut files = Vec::new();
    for entry in fs::read_dir(folder).expect("the folder can be read") {
        let path = entry.expect("the folder can be read").path();
        if path.is_dir() {
            files.extend(files_below(&path));
        } else {
            files.push(path);
        }
    }
    files.sort();
    files
}

fn with_extension<'a>(files: &'a [PathBuf], extension: &str) -> Vec<&'a PathBuf> {
    files
        .iter()
        .filter(|path| path.extension().is_some_and(|found| found == extension))
        .collect()
}

/// What is wrong with a script file, if anything.
fn problem(script: &Path) -> Option<String> {
    let expected_file = script.with_extension("expected");
    let Ok(expected) = fs::read(&expected_file) else {
        return Some(format!("{} is missing", expected_file.display()));
    };
    let input = fs::read(script).expect("the script can be read");
    let answers = printed(&input);
    if answers.as_bytes() == expected {
        return None;
    }
    Some(first_difference(script, &input, &answers, &expected))
}

/// Names the first line whose answer differs.
fn first_difference(script: &Path, input: &[u8], answers: &str, expected: &[u8]) -> String {
    let input = String::from_utf8_lossy(input);
    let expected = String::from_utf8_lossy(expected);
    let calls: Vec<&str> = input.lines().collect();
    let answers: Vec<&str> = answers.lines().collect();
    let expected: Vec<&str> = expected.lines().collect();
    let most = answers.len().max(expected.len());
    let place = (0..most).find(|&place| answers.get(place) != expected.get(place));
    let Some(place) = place else {
        return format!("{}: the line ends differ", script.display());
    };
    let show = |lines: &[&str]| lines.get(place).unwrap_or(&"(nothing)").to_string();
    format!(
        "{}:{}: {} gives {}, expected {}",
        script.display(),
        place + 1,
        show(&calls),
        show(&answers),
        show(&expected)
    )
}

#[test]
fn the_examples_of_the_manual() {
    let folder = Path::new(env!("CARGO_MANIFEST_DIR")).join("manual");
    let files = files_below(&folder);
    let scripts = with_extension(&files, "script");
    assert!(!scripts.is_empty(), "{} has no scripts", folder.display());
    let mut problems: Vec<String> = scripts.iter().filter_map(|path| problem(path)).collect();
    for expected in with_extension(&files, "expected") {
        if !expected.with_extension("script").exists() {
            problems.push(format!("{} has no script", expected.display()));
        }
    }
    assert!(problems.is_empty(), "\n{}", problems.join("\n"));
}

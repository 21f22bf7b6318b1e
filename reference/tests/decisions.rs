//! The claims of `docs/DECISIONS.md`: each "`script` ends `answer`" holds.

mod common;

use std::fs;
use std::path::Path;

use common::printed;

/// Fewer claims than this mean that the page has another form now.
const LEAST_CLAIMS: usize = 100;

/// What `P` at the head of a script stands for ..
const PREPARATION: [&str; 4] = ["CUS 9", "CUN 1 9", "CUN 2 9", "CUN 3 9"];

/// .. as the page itself says.
const MEANING_OF_P: &str = "`P` at the head of a script stands for the four lines \
     `CUS 9`, `CUN 1 9`, `CUN 2 9`, `CUN 3 9`";

struct Claim<'a> {
    /// The line of the page, from 1.
    line: usize,
    script: &'a str,
    answer: &'a str,
}

/// The claims on a line of the page: a code span, "ends", a code span.
fn claims_on(line: usize, text: &str) -> Vec<Claim<'_>> {
    text.match_indices("` ends `")
        .filter_map(|(place, between)| {
            let (_, script) = text[..place].rsplit_once('`')?;
            let (answer, _) = text[place + between.len()..].split_once('`')?;
            Some(Claim {
                line,
                script,
                answer,
            })
        })
        .collect()
}

fn claims(page: &str) -> Vec<Claim<'_>> {
    page.lines()
        .zip(1..)
        .flat_map(|(text, line)| claims_on(line, text))
        .collect()
}

/// The lines of a script, parted by `;`.
fn lines_of(script: &str) -> Vec<&str> {
    let (head, rest) = script.split_once("; ").unwrap_or((script, ""));
    if head != "P" {
        return script.split("; ").collect();
    }
    PREPARATION.into_iter().chain(rest.split("; ")).collect()
}

/// What is wrong with a claim, if anything.
fn problem(claim: &Claim) -> Option<String> {
    let lines = lines_of(claim.script);
    let answers = printed(lines.join("\n").as_bytes());
    let last = answers.lines().last().unwrap_or("(nothing)");
    let answers_all = answers.lines().count() == lines.len();
    if answers_all && last == claim.answer {
        return None;
    }
    Some(format!(
        "line {}: `{}` ends `{last}`, the page says `{}`",
        claim.line, claim.script, claim.answer
    ))
}

#[test]
fn every_claim_of_the_decisions_holds() {
    let path = Path::new(env!("CARGO_MANIFEST_DIR")).join("../docs/DECISIONS.md");
    let page = fs::read_to_string(path).expect("the page can be read");
    assert!(page.contains(MEANING_OF_P), "the meaning of P has changed");
    let claims = claims(&page);
    let found = claims.len();
    assert!(found >= LEAST_CLAIMS, "only {found} claims were found");
    let problems: Vec<String> = claims.iter().filter_map(problem).collect();
    assert!(problems.is_empty(), "\n{}", problems.join("\n"));
}

#[test]
fn a_wrong_claim_is_named() {
    let page = "| a | `CUN 1; SUN` ends `L 1 0:1`, otherwise `L 0`; `P; XUN 4` ends `T` |";
    let problems: Vec<String> = claims(page).iter().filter_map(problem).collect();
    let expected = "line 1: `P; XUN 4` ends `NIL`, the page says `T`";
    assert_eq!(problems, [expected]);
}

//! Every refusal that a script can reach, by all operators that can have it;
//! after each kind the state is read, which no refused call has changed.

use crate::operators::{arguments, letters, reads, Argument};
use crate::random::scripts::state_after;
use crate::script::CAPACITY;

/// Nodes 1 to 3, the spaces 8 (empty) and 9 (nodes 1 and 2), one edge in
/// UNIVERSE and in 9; a value everywhere.
#[rustfmt::skip]
const GRAPH: &[&str] = &[
    "CUN 1", "CUN 2", "CUN 3", "CUS 8", "CUS 9", "CUN 1 9", "CUN 2 9", "COP 1 5 2 9",
    "BUS U 100", "BUS 8 80", "BUS 9 90", "BUN 1 11", "BUN 2 12", "BUN 3 13", "BUN 1 91 9",
    "BUN 2 92 9", "BOP 1 5 2 60", "BOP 1 5 2 69 9",
];

/// Lines that read all of it.
#[rustfmt::skip]
const READS: &[&str] = &[
    "SUS", "XUN 4", "SUN 8", "SUN 9", "SUS 1", "SUS 2", "SUS 3", "SAP 1", "SAP 2", "SAP 3", "SAP 1 9",
    "SAP 2 9", "VUS U", "VUS 8", "VUS 9", "VUN 1", "VUN 2", "VUN 3", "VUN 1 9", "VUN 2 9",
    "VOP 1 5 2", "VIP 2 5 1 9",
];

/// What is like a refused call and is answered.
#[rustfmt::skip]
const ANSWERED: &[&str] = &[
    "DUS 7", "XUS 7", "XUS U", "DUN 4", "XUN 4", "DUN 3 9", "XUN 3 9", "XOP 1 6 2", "DOP 1 6 2",
    "DOP 2 5 1", "DAP 1 5 3", "XAP 2 5 1", "BAP 2 5 1 60", "BAP 2 5 1 69 9", "BUN 3 0",
    "BUN 3 13", "DOGG 1 6", "SOGN 1 3",
];

/// 8: no such edge.
#[rustfmt::skip]
const NO_EDGE: &[&str] = &[
    "BOP 1 6 2 7", "BOP 2 5 1 7", "BOP 1 5 3 7", "BOP 1 5 1 7", "BOP 2 5 1 7 9", "BIP 1 5 2 7",
    "BIP 2 6 1 7", "BIP 1 5 2 7 9", "BAP 1 6 2 7", "BAP 1 5 3 7", "BAP 3 5 2 7 U",
    "BAP 1 6 2 7 9", "VOP 2 5 1", "VOP 1 6 2", "VOP 2 5 1 9", "VIP 1 5 2", "VIP 2 6 1",
    "VIP 1 5 2 9",
];

/// 11: no call is made.
#[rustfmt::skip]
const UNREADABLE: &[&str] = &[
    "", "CUN", "CUN 65536", "cun 4", "CUN 04", "CUN 4 9 9", "COP 1 6", "BOP 2 5 1", "CUS",
    "DUS", "SUS U", "VAP 1 5 2", "DUN 1 U U",
];

/// Conditions that hold together; the first one wins.
#[rustfmt::skip]
const TOGETHER: &[(&str, &[&str])] = &[
    // 11 with 3, with 4 and with 5 to 8.
    ("R 11", &["COP 0 5 65536", "DUS U U", "DUS", "BOP 4 6 4 7 7 7", "CUN 0 07"]),
    // 3 with 5, with 6, with 7 and with 8. A space 0 is not UNIVERSE: 3, not 4.
    (
        "R 3",
        &[
            "DUS 0", "CUN 0 7", "SUN 0", "BUS 0 7", "COP 1 0 2 7", "COP 4 0 2", "DOGG 4 0",
            "SOGN 4 0", "COP 1 0 4", "XOP 3 0 3 9", "BOP 1 0 2 7", "VIP 1 0 2", "BAP 0 6 4 7 7",
            "SUS 0",
        ],
    ),
    // 5 with 6, with 7 and with 8.
    (
        "R 5",
        &[
            "COP 4 5 2 7", "VUN 4 7", "BUN 4 1 7", "SOP 4 7", "DON 4 7", "COP 1 5 4 7",
            "SAGN 1 4 7", "BOP 1 6 2 7 7", "VIP 1 6 2 7", "BAP 4 6 4 7 7",
        ],
    ),
    // 6 with 7 and with 8.
    (
        "R 6",
        &[
            "COP 4 5 4", "CAP 3 5 3 9", "XIP 4 5 4 9", "DOGN 4 4", "SIGN 3 4 9", "BOP 4 5 2 7",
            "VOP 3 5 1 9", "BAP 4 6 4 7",
        ],
    ),
    // 7 with 8.
    ("R 7", &["BOP 1 6 4 7", "BIP 1 5 4 7", "BAP 1 6 3 7 9", "VOP 1 5 3 9", "VIP 2 5 4"]),
];

/// 10, on a store with all records used.
#[rustfmt::skip]
const FULL: &[&str] = &[
    "CUN 4", "CUN 4 9", "CUN 3 9", "CUN 1 8", "CUS 7", "COP 1 6 2", "COP 2 5 1", "COP 1 6 2 9",
    "CIP 1 6 2", "CIP 1 5 2 9", "CAP 1 6 2", "CAP 1 5 2", "CAP 1 5 2 9", "CAP 1 5 1",
    "CAP 1 5 1 9",
];

/// Other refusals, where 10 would hold too, and what adds nothing.
#[rustfmt::skip]
const FULL_TOGETHER: &[(&str, &[&str])] = &[
    ("R 11", &["CUN 65536", "CUS"]),
    ("R 3", &["CUN 0", "CUS 0", "COP 1 0 2"]),
    ("R 5", &["CUN 4 7", "COP 1 5 2 7"]),
    ("R 6", &["COP 4 5 1", "CIP 3 5 1 9"]),
    ("R 7", &["COP 1 5 4", "CAP 1 5 3 9"]),
    ("R 8", &["BOP 2 5 1 7", "VIP 1 5 2 9"]),
    ("= 1 +0", &["CUN 1", "CUN 1 9", "COP 1 5 2", "COP 1 5 2 9"]),
    ("= 2 +0", &["CIP 2 5 1 9"]),
    ("= 9 +0", &["CUS 9"]),
    ("= 0 +0", &["CUS U"]),
];

/// The line of an operator with these words.
fn line(operator: u32, words: &[String]) -> String {
    let letters = letters(operator).unwrap_or_default();
    format!("{letters} {}", words.join(" "))
}

/// What an argument is where nothing is wrong.
fn usual(argument: Argument) -> String {
    let word = match argument {
        Argument::FirstNode => "1",
        Argument::Edge => "5",
        Argument::SecondNode => "2",
        Argument::Value => "7",
        Argument::Space => "9",
    };
    word.to_string()
}

/// The line of an operator with some other word for one of its arguments, and
/// this space.
fn line_with(operator: u32, other: Argument, word: &str, space: &str) -> String {
    let words = arguments(operator).iter().map(|&argument| {
        if argument == other {
            word.to_string()
        } else if argument == Argument::Space {
            space.to_string()
        } else {
            usual(argument)
        }
    });
    line(operator, &words.collect::<Vec<_>>())
}

/// 3: each name that each operator reads is 0.
fn names_of_zero() -> Vec<String> {
    let mut lines = Vec::new();
    for operator in 1..=57 {
        let names = arguments(operator).iter();
        for &name in names.filter(|&&argument| argument != Argument::Value) {
            lines.push(line_with(operator, name, "0", "9"));
        }
    }
    lines
}

/// 5: the space is absent.
fn absent_spaces() -> Vec<String> {
    (1..=55)
        .filter(|operator| !matches!(operator, 51 | 54 | 55))
        .map(|operator| line_with(operator, Argument::Space, "7", "7"))
        .collect()
}

/// 6: the first node is absent from UNIVERSE, or from the space alone.
fn absent_first_nodes() -> Vec<String> {
    let operators = (1..=44).chain([46, 47]);
    let mut lines: Vec<String> = operators
        .flat_map(|operator| {
            let word = |word, space| line_with(operator, Argument::FirstNode, word, space);
            [word("4", "U"), word("3", "9")]
        })
        .collect();
    lines.push("SUS 4".to_string());
    lines
}

/// 7: the second node is absent from UNIVERSE, or from the space alone.
fn absent_second_nodes() -> Vec<String> {
    (1..=57)
        .filter(|&operator| reads(operator, Argument::SecondNode))
        .flat_map(|operator| {
            let word = |word, space| line_with(operator, Argument::SecondNode, word, space);
            [word("4", "U"), word("3", "9")]
        })
        .collect()
}

/// Lines that all have one answer.
type Group = (&'static str, Vec<String>);

fn group((answer, lines): &(&'static str, &[&str])) -> Group {
    (*answer, lines.iter().map(|line| line.to_string()).collect())
}

/// The lines that are refused while there is room.
fn groups() -> Vec<Group> {
    let mut groups = vec![
        ("R 3", names_of_zero()),
        ("R 4", vec!["DUS U".to_string(); 2]),
        ("R 5", absent_spaces()),
        ("R 6", absent_first_nodes()),
        ("R 7", absent_second_nodes()),
        group(&("R 8", NO_EDGE)),
        group(&("R 11", UNREADABLE)),
    ];
    groups.extend(TOGETHER.iter().map(group));
    groups
}

/// The lines of a full store.
fn groups_when_full() -> Vec<Group> {
    let mut groups = vec![group(&("R 10", FULL))];
    groups.extend(FULL_TOGETHER.iter().map(group));
    groups
}

pub fn script() -> Vec<u8> {
    let mut script = String::new();
    add(&mut script, GRAPH);
    add(&mut script, READS);
    add(&mut script, &["SUN"]);
    add_groups(&mut script, groups());
    add(&mut script, &["SUN"]);
    add(&mut script, ANSWERED);
    add(&mut script, READS);
    add(&mut script, &["SUN"]);
    let filling = filling(&script);
    add(&mut script, &filling);
    add_groups(&mut script, groups_when_full());
    add(&mut script, &["SUN"]);
    script.into_bytes()
}

/// Adds the lines of each group, then those that read the state.
fn add_groups(script: &mut String, groups: Vec<Group>) {
    for (_, lines) in groups {
        add(script, &lines);
        add(script, READS);
    }
}

/// As many nodes as there is room for.
fn filling(script: &str) -> Vec<String> {
    let used = state_after(script.as_bytes()).tuples().count();
    (used..CAPACITY).map(|n| format!("CUN {n}")).collect()
}

fn add(script: &mut String, lines: &[impl AsRef<str>]) {
    for line in lines {
        *script += line.as_ref();
        script.push('\n');
    }
}

#[cfg(test)]
mod tests {
    use super::*;
    use crate::script::printed;

    /// Whether all lines of each group have its answer after a script.
    fn check(before: &str, groups: Vec<Group>) {
        for (answer, lines) in groups {
            for line in lines {
                let output = printed(format!("{before}{line}\n").as_bytes());
                let output = String::from_utf8(output).expect("answers are plain text");
                assert_eq!(output.lines().last(), Some(answer), "{line}");
            }
        }
    }

    #[test]
    fn each_group_has_its_answer() {
        let mut before = String::new();
        add(&mut before, GRAPH);
        check(&before, groups());
        let filling = filling(&before);
        add(&mut before, &filling);
        check(&before, groups_when_full());
    }

    #[test]
    fn the_state_stays_as_it_was() {
        let output = String::from_utf8(printed(&script())).expect("answers are plain text");
        let answers: Vec<&str> = output.lines().collect();
        let reads = &answers[GRAPH.len()..GRAPH.len() + READS.len()];
        let found = answers.windows(READS.len()).filter(|part| *part == reads);
        let groups = groups().len() + groups_when_full().len();
        assert_eq!(found.count(), groups + 2);
    }
}

//! Nothing as the space of a call (request 1): each operator with `-`, and `-`
//! where none can stand. The state is read before and after.

use crate::operators::{arguments, letters, Argument};

/// Nodes 1 to 3, the spaces 8 (empty) and 9 (nodes 1 and 2), edges 5 both ways
/// between 1 and 2 in UNIVERSE and in 9; some values.
#[rustfmt::skip]
const GRAPH: [&str; 10] = [
    "CUS 8", "CUS 9", "CUN 1 9", "CUN 2 9", "CUN 3", "CAP 1 5 2 9", "BUS 9 90", "BUN 1 11",
    "BOP 1 5 2 60", "BIP 1 5 2 61 9",
];

/// Lines that read it.
#[rustfmt::skip]
const READS: [&str; 9] = [
    "SUS", "SUN", "SUN 8", "SUN 9", "SAP 1", "XOP 1 5 2 9", "VUN 1", "VOP 1 5 2", "VIP 1 5 2 9",
];

/// Names that are absent, on nothing and in the empty space.
#[rustfmt::skip]
const ABSENT: [&str; 9] = [
    "COP 7 6 8 -", "COP 7 6 8 8", "BUN 7 1 -", "XOP 7 6 8 -", "XOP 7 6 8 8", "DON 7 -", "SAP 7 -",
    "VOP 7 6 8 -", "XUN 7",
];

/// A name is 0: 3 and not 12.
#[rustfmt::skip]
const ZERO: [&str; 9] = [
    "VOP 0 5 2 -", "VOP 1 0 2 -", "VIP 1 5 0 -", "VUN 0 -", "CUN 0 -", "BOP 1 0 2 7 -",
    "XOP 1 5 0 -", "SOGN 1 0 -", "DUN 0 -",
];

/// `-` where no space stands, and what is not `-`.
#[rustfmt::skip]
const UNREADABLE: [&str; 18] = [
    "SUS -", "SUS 1 -", "CUN -", "CUN - -", "COP 1 - 2", "COP 1 5 -", "BOP 1 5 2 -", "BUN 1 - -",
    "BUS 9 -", "BUS -", "-", "SUN --", "SUN - -", "SUN -9", "SUN 9-", "SUN-", "SUN - ", "CUS -9",
];

/// The lines of operators 1 to 55 with `-`. Each of 1 to 50 would change or
/// find something in UNIVERSE.
fn on_nothing() -> Vec<String> {
    (1..=55)
        .map(|operator| {
            let mut line = letters(operator).unwrap_or_default().to_string();
            for argument in arguments(operator) {
                line += match argument {
                    // A new edge, and a new node.
                    Argument::Edge if operator <= 3 => " 6",
                    Argument::FirstNode if operator == 45 => " 4",
                    Argument::FirstNode => " 1",
                    Argument::Edge => " 5",
                    Argument::SecondNode => " 2",
                    Argument::Value => " 7",
                    Argument::Space => " -",
                };
            }
            line
        })
        .collect()
}

pub fn script() -> Vec<u8> {
    let mut script = String::new();
    add(&mut script, &GRAPH);
    add(&mut script, &READS);
    add(&mut script, &on_nothing());
    add(&mut script, &ABSENT);
    add(&mut script, &ZERO);
    add(&mut script, &UNREADABLE);
    add(&mut script, &READS);
    script.into_bytes()
}

fn add(script: &mut String, lines: &[impl AsRef<str>]) {
    for line in lines {
        *script += line.as_ref();
        script.push('\n');
    }
}

#[cfg(test)]
mod tests {
    use super::*;
    use crate::operators::{kind, Kind};
    use crate::script::printed;

    /// The answers to a part of the script, which starts after some lines.
    fn answers(first: usize, count: usize) -> Vec<String> {
        let output = String::from_utf8(printed(&script())).expect("answers are plain text");
        let answers = output.lines().skip(first).take(count);
        answers.map(str::to_string).collect()
    }

    const FIRST: usize = GRAPH.len() + READS.len();
    const SECOND: usize = FIRST + 55;

    #[test]
    fn the_graph_is_made_and_stays() {
        let made = answers(0, GRAPH.len());
        assert!(made.iter().all(|answer| answer.starts_with("= ")));
        let reads = answers(GRAPH.len(), READS.len());
        let last = SECOND + ABSENT.len() + ZERO.len() + UNREADABLE.len();
        assert_eq!(answers(last, usize::MAX), reads);
        assert!(reads.iter().all(|answer| !answer.starts_with('R')));
    }

    #[test]
    fn each_operator_answers_as_its_kind() {
        for (answer, operator) in answers(FIRST, 55).iter().zip(1..) {
            let expected = match (operator, kind(operator)) {
                (51..=55, _) | (_, Some(Kind::Value)) => "R 12",
                (45, _) => "= 4 +0",
                (_, Some(Kind::Create)) => "= 1 +0",
                (_, Some(Kind::Destroy)) => "= 1 -0",
                (_, Some(Kind::Exists)) => "NIL",
                (_, Some(Kind::SetOf)) => "L 0",
                _ => "= 1",
            };
            assert_eq!(answer, expected, "{operator}");
        }
    }

    #[test]
    fn each_group_has_its_answers() {
        let absent = [
            "= 7 +0", "R 6", "= 7", "NIL", "R 6", "= 7 -0", "L 0", "R 12", "NIL",
        ];
        assert_eq!(answers(SECOND, ABSENT.len()), absent);
        let zero = answers(SECOND + ABSENT.len(), ZERO.len());
        assert!(zero.iter().all(|answer| answer == "R 3"));
        let unreadable = answers(SECOND + ABSENT.len() + ZERO.len(), UNREADABLE.len());
        assert!(unreadable.iter().all(|answer| answer == "R 11"));
    }
}

//! A store that is filled, used while it is full, partly freed and filled
//! again.

use crate::random::scripts::state_after;
use crate::script::CAPACITY;

/// With 2,046 nodes there is room for one tuple: one edge, not two.
#[rustfmt::skip]
const ROOM_FOR_ONE: &[&str] = &[
    "CAP 1 5 2", "SAP 1", "CUN 2047 U", "DUN 2047", "CAP 1 5 1", "CAP 1 5 1", "SAP 1",
    "CUN 2047", "CUS 9", "DAP 1 5 1", "CAP 1 5 2", "SAP 1", "COP 1 5 2",
];

/// A full store creates nothing. What adds no tuple is answered, what is
/// stopped earlier has its own number, and the rest works as before.
#[rustfmt::skip]
const WHILE_FULL: &[&str] = &[
    "CUN 2047", "CUN 65535 U", "CUS 9", "CUS 65535", "COP 1 6 2", "CIP 1 6 2", "CAP 1 6 2",
    "COP 2 5 1", "CIP 1 5 2", "CAP 1 5 2", "CAP 3 5 3", "COP 1 5 1", "COP 1 5 2", "CIP 2 5 1",
    "CUN 1", "CUN 2046", "CUS U", "CUN 0", "CUS 0", "CUN 1 9", "COP 3000 5 1", "COP 1 5 3000",
    "DUS U", "BOP 2 5 1 7", "BUN 1 7", "VUN 1", "BOP 1 5 2 60", "VOP 1 5 2", "BUS U 5", "VUS U",
    "XUN 2047", "XUS 9", "XAP 2 5 1", "SOP 1", "SIP 2", "SAG 1", "SON 1", "SUS", "SUS 1",
];

/// Room is made for one tuple at a time, in a space too: there a node takes up
/// to two, an edge up to two, a pair of edges up to four.
#[rustfmt::skip]
const FREED_AND_TAKEN: &[&str] = &[
    "DUN 2046", "CUS 9", "CUS 8", "CUN 1 9", "SUN 9", "DUN 2046", "CUN 1 9", "DUN 2045",
    "CUN 1 9", "CUN 2 9", "DUN 2044", "CUN 2 9", "SUN 9", "COP 1 5 2 9", "DUN 2043",
    "COP 1 5 2 9", "VOP 1 5 2 9", "VOP 1 5 2", "DUN 2042", "CIP 1 5 2 9", "CAP 1 5 2 9",
    "SIP 1", "SIP 1 9", "DUN 2041", "CAP 1 5 2 9", "SAP 1 9", "DUN 2040", "CUN 3000 9",
    "XUN 3000", "XUN 3000 9", "DUN 2039", "CUN 3000 9", "SUS 3000", "DUN 2038", "DUN 2037",
    "DUN 2036", "CAP 1 6 2 9", "SAP 1", "SAP 1 9", "COP 1 6 2 9", "DUN 2035", "CIP 1 6 2 9",
    "CUN 2035", "DOP 1 6 2", "CAP 1 6 2 9", "SAP 1", "SAP 1 9", "DUN 2 9", "SUN 9", "SAP 1 9",
    "SAP 1", "CUN 2 9", "SOP 2 9", "DUS 9", "SUN 9", "SUS", "SUS 3000", "DAG 1", "SAP 1",
    "SAP 2",
];

/// A store with 2,047 nodes.
#[rustfmt::skip]
const AT_LAST: &[&str] = &[
    "CUN 2046", "CUN 2046 U", "CUS 9", "COP 1 5 1", "SUS", "XUN 2", "XUN 65535", "VUN 65535",
    "VUN 1", "VUS U", "SUN",
];

pub fn script() -> Vec<u8> {
    let mut script = String::new();
    add(&mut script, (1..=2_046).map(|n| format!("CUN {n}")));
    for lines in [ROOM_FOR_ONE, WHILE_FULL, FREED_AND_TAKEN] {
        add(&mut script, lines.iter().copied());
    }
    // Every second node is freed; other names take the records.
    add(
        &mut script,
        (1..1_000).map(|half| format!("DUN {}", 2 * half)),
    );
    let used = state_after(script.as_bytes()).tuples().count();
    let names = (0..CAPACITY - used).map(|place| format!("CUN {}", 65_535 - place));
    add(&mut script, names);
    add(&mut script, AT_LAST.iter().copied());
    script.into_bytes()
}

fn add(script: &mut String, lines: impl Iterator<Item = impl AsRef<str>>) {
    for line in lines {
        *script += line.as_ref();
        script.push('\n');
    }
}

#[cfg(test)]
mod tests {
    use super::*;
    use crate::script::printed;

    #[test]
    fn the_last_line_lists_2047_nodes() {
        let output = String::from_utf8(printed(&script())).expect("answers are plain text");
        let last = output.lines().last().expect("there are answers");
        assert!(last.starts_with("L 2047 0:1 0:3 0:5 "), "{last}");
        assert!(last.ends_with(" 0:65534 0:65535"));
    }
}

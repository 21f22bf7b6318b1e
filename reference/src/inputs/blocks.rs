//! A list that just fills its 2,048 places, printed often enough to fill
//! several blocks of output.

use crate::script::CAPACITY;

/// How often the list is printed.
const TIMES: usize = 12;

/// UNIVERSE and all other spaces that fit, listed.
pub fn script() -> Vec<u8> {
    let mut lines: Vec<String> = (1..CAPACITY).map(|space| format!("CUS {space}")).collect();
    lines.extend((0..TIMES).map(|_| "SUS".to_string()));
    lines.join("\n").into_bytes()
}

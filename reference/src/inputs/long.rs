//! Inputs of the greatest length, and of one byte more.

use crate::random::lists::Forms;
use crate::random::scripts::{description, lines, state_after};
use crate::random::Draws;
use crate::script::MOST_BYTES;

/// What the calls leave of 65,536 bytes for the lines that read the state.
const RESERVED: usize = 4_000;

/// The calls are drawn so many at a time; each part makes a graph of its own
/// beside those that are there.
const IN_A_PART: usize = 150;

/// 65,536 bytes: calls of all kinds, then lines that read the whole state. The
/// last has no line feed.
pub fn exact() -> Vec<u8> {
    let calls = calls(MOST_BYTES - RESERVED);
    let mut reads = description(&state_after(&calls), usize::MAX);
    reads.pop();
    let padding = MOST_BYTES - calls.len() - reads.len();
    let padding = [b"SUS\n".repeat(padding / 4), b"\n".repeat(padding % 4)].concat();
    [calls, padding, reads].concat()
}

/// One byte more than 65,536: the same with a line feed at the end.
pub fn over() -> Vec<u8> {
    let mut script = exact();
    script.push(b'\n');
    script
}

/// Calls as whole lines, of so many bytes at most.
fn calls(length: usize) -> Vec<u8> {
    let forms = Forms::WithoutNothing;
    let parts = (1..).flat_map(|part| lines(&mut Draws::new(1, 6, part), IN_A_PART, forms));
    let mut script = Vec::new();
    for line in parts {
        if script.len() + line.len() >= length {
            break;
        }
        script.extend(line);
        script.push(b'\n');
    }
    script
}

#[cfg(test)]
mod tests {
    use super::*;

    #[test]
    fn the_lengths_are_right() {
        assert_eq!(exact().len(), 65_536);
        assert_ne!(exact().last(), Some(&b'\n'));
        assert_eq!(over().len(), 65_537);
    }
}

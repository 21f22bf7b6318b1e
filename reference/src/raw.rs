//! Calls written as raw numbers, for calls that no script line can give.

use crate::machine::{Call, Edge, Node, Space, SpaceName};

/// The call on a line `operator n g m v s length`, where s is `U`, `-`
/// or a number; none if the line isn't of this form.
pub fn read_call(line: &str) -> Option<Call> {
    let words: Vec<&str> = line.split_ascii_whitespace().collect();
    let [operator, n, g, m, v, s, length] = words[..] else {
        return None;
    };
    Some(Call {
        operator: operator.parse().ok()?,
        n: Node(n.parse().ok()?),
        g: Edge(g.parse().ok()?),
        m: Node(m.parse().ok()?),
        v: v.parse().ok()?,
        space: read_space(s)?,
        list_length: length.parse().ok()?,
    })
}

fn read_space(word: &str) -> Option<Space> {
    match word {
        "U" => Some(Space::Universe),
        "-" => Some(Space::Nothing),
        _ => Some(Space::Numbered(SpaceName(word.parse().ok()?))),
    }
}

#[cfg(test)]
mod tests {
    use super::*;

    #[test]
    fn any_numbers_read_as_a_call() {
        let call = read_call("4294967295 0 65535 0 4294967295 0 12345678").expect("readable");
        let expected = Call {
            operator: u32::MAX,
            n: Node(0),
            g: Edge(65_535),
            m: Node(0),
            v: u32::MAX,
            space: Space::Numbered(SpaceName(0)),
            list_length: 12_345_678,
        };
        assert_eq!(call, expected);
        let universe = read_call("50 0 0 0 0 U 0").expect("readable");
        assert_eq!(universe.space, Space::Universe);
        let nothing = read_call("50 0 0 0 0 - 0").expect("readable");
        assert_eq!(nothing.space, Space::Nothing);
    }

    #[test]
    fn other_lines_do_not() {
        for line in [
            "",
            "50",
            "50 0 0 0 0 U",
            "50 0 0 0 0 U 0 0",
            "50 0 0 65536 0 U 0",
            "50 - 0 0 0 U 0",
            "50 0 0 0 0 -- 0",
        ] {
            assert_eq!(read_call(line), None, "{line}");
        }
    }
}

//! The language of the script program `slips`: lines are read as calls and
//! answers are printed, a line each.

use std::io::{self, Write};

use crate::machine::{Answer, Call, Edge, Machine, Node, Space, SpaceName, NIL};
use crate::operators::{self, Argument};

/// "It reads at most 65,536 bytes of standard input."
pub const MOST_BYTES: usize = 65_536;

/// C of the store that `slips` runs a script on.
pub const CAPACITY: usize = 2_048;

/// The length of the answer list of `slips`.
pub const LIST_LENGTH: usize = 2_048;

/// "A line that doesn't read as a call is refused 11."
const UNREADABLE: Answer = Answer::Refusal(11);

const LINE_FEED: u8 = b'\n';
const BLANK: u8 = b' ';

/// Runs a script on a fresh machine, prints what `slips` prints and gives
/// back the machine. More than 65,536 bytes print "the one line `R 11`", and
/// no call is made.
pub fn run(
    input: &[u8],
    capacity: usize,
    list_length: usize,
    output: &mut impl Write,
) -> io::Result<Machine> {
    let mut machine = Machine::new(capacity);
    if input.len() > MOST_BYTES {
        print_answer(&UNREADABLE, output)?;
        return Ok(machine);
    }
    for line in lines(input) {
        let answer = match read_call(line, list_length) {
            Some(call) => machine.step(&call),
            None => UNREADABLE,
        };
        print_answer(&answer, output)?;
    }
    Ok(machine)
}

/// What `slips` prints for a script.
pub fn printed(input: &[u8]) -> Vec<u8> {
    let mut output = Vec::new();
    run(input, CAPACITY, LIST_LENGTH, &mut output).expect("a vector takes all bytes");
    output
}

/// "Lines end with a line feed, the last perhaps not." A line feed ends a
/// line and starts none; empty input has no lines.
pub fn lines(input: &[u8]) -> Vec<&[u8]> {
    if input.is_empty() {
        return Vec::new();
    }
    let without_last_end = input.strip_suffix(&[LINE_FEED]).unwrap_or(input);
    without_last_end.split(|&byte| byte == LINE_FEED).collect()
}

/// The call that a line reads as; none if it doesn't read as a call.
/// "Arguments follow in the order above, one blank before each."
pub fn read_call(line: &[u8], list_length: usize) -> Option<Call> {
    let mut words = line.split(|&byte| byte == BLANK);
    let letters = words.next()?;
    let words: Vec<&[u8]> = words.collect();
    let operator = operator_of(letters, words.len())?;
    let mut call = Call {
        operator,
        n: Node(0),
        g: Edge(0),
        m: Node(0),
        v: NIL,
        space: Space::Universe,
        list_length,
    };
    let arguments = arguments_given(operator, words.len())?;
    for (&argument, word) in arguments.iter().zip(words) {
        read_argument(&mut call, argument, word)?;
    }
    Some(call)
}

/// The operator with these letters. "SUS with a number is 57."
fn operator_of(letters: &[u8], count: usize) -> Option<u32> {
    match (operators::number(letters)?, count) {
        (56, 1) => Some(57),
        (operator, _) => Some(operator),
    }
}

/// The arguments that a line with so many of them gives; none if there are
/// too few or too many. "For 1–50 the last, s, may be missing and means
/// UNIVERSE."
fn arguments_given(operator: u32, count: usize) -> Option<&'static [Argument]> {
    let all = operators::arguments(operator);
    let space_is_left_out = (1..=50).contains(&operator) && count + 1 == all.len();
    if count == all.len() || space_is_left_out {
        all.get(..count)
    } else {
        None
    }
}

/// Reads one argument into its field.
fn read_argument(call: &mut Call, argument: Argument, word: &[u8]) -> Option<()> {
    match argument {
        Argument::FirstNode => call.n = Node(read_name(word)?),
        Argument::Edge => call.g = Edge(read_name(word)?),
        Argument::SecondNode => call.m = Node(read_name(word)?),
        Argument::Value => call.v = read_number(word)?,
        Argument::Space => call.space = read_space(word)?,
    }
    Some(())
}

/// "UNIVERSE is `U`." Nothing is "written `-`" (request 1).
fn read_space(word: &[u8]) -> Option<Space> {
    match word {
        b"U" => Some(Space::Universe),
        b"-" => Some(Space::Nothing),
        _ => Some(Space::Numbered(SpaceName(read_name(word)?))),
    }
}

/// "Names to 65,535."
fn read_name(word: &[u8]) -> Option<u16> {
    u16::try_from(read_number(word)?).ok()
}

/// "Plain digits without a leading zero (zero itself is `0`)", "values to
/// 4,294,967,295".
fn read_number(word: &[u8]) -> Option<u32> {
    let has_leading_zero = word.len() > 1 && word[0] == b'0';
    if word.is_empty() || has_leading_zero || !word.iter().all(u8::is_ascii_digit) {
        return None;
    }
    word.iter().try_fold(0u32, |number, &digit| {
        number.checked_mul(10)?.checked_add(u32::from(digit - b'0'))
    })
}

/// Prints an answer and a line feed: "`= name`, `V value`, `T` or `NIL`,
/// `L k` then ` edge:node` for each, `R number`". Request 2: of C and D "as
/// `= 1 +2` or `= 1 -5`, with `+0` or `-0` for none".
pub fn print_answer(answer: &Answer, output: &mut impl Write) -> io::Result<()> {
    match answer {
        Answer::Refusal(number) => write!(output, "R {number}")?,
        Answer::Name(name) => write!(output, "= {name}")?,
        Answer::Added(name, count) => write!(output, "= {name} +{count}")?,
        Answer::Removed(name, count) => write!(output, "= {name} -{count}")?,
        Answer::Value(value) => write!(output, "V {value}")?,
        Answer::YesNo(true) => write!(output, "T")?,
        Answer::YesNo(false) => write!(output, "NIL")?,
        Answer::List(entries) => {
            write!(output, "L {}", entries.len())?;
            for (edge, node) in entries {
                write!(output, " {edge}:{node}")?;
            }
        }
    }
    output.write_all(&[LINE_FEED])
}

#[cfg(test)]
mod tests {
    use super::*;

    fn printed(answer: &Answer) -> String {
        let mut output = Vec::new();
        print_answer(answer, &mut output).expect("a vector takes all bytes");
        String::from_utf8(output).expect("answers are plain text")
    }

    #[test]
    fn a_line_feed_ends_a_line_and_starts_none() {
        assert!(lines(b"").is_empty());
        assert_eq!(lines(b"a"), [b"a"]);
        assert_eq!(lines(b"a\n"), [b"a"]);
        assert_eq!(lines(b"\n"), [b""]);
        assert_eq!(lines(b"a\n\nb"), [&b"a"[..], b"", b"b"]);
        assert_eq!(lines(b"\n\n"), [b"", b""]);
    }

    #[test]
    fn numbers_are_plain_digits() {
        assert_eq!(read_number(b"0"), Some(0));
        assert_eq!(read_number(b"4294967295"), Some(u32::MAX));
        for word in [
            &b""[..],
            b"00",
            b"01",
            b"+1",
            b"-1",
            b"1x",
            b"1\0",
            b"\xb2",
            b"4294967296",
            b"9999999999999999999999999999999999999999",
        ] {
            assert_eq!(read_number(word), None, "{word:?}");
        }
    }

    #[test]
    fn names_end_at_65535() {
        assert_eq!(read_name(b"65535"), Some(65_535));
        assert_eq!(read_name(b"65536"), None);
    }

    #[test]
    fn every_answer_has_its_line() {
        assert_eq!(printed(&Answer::Refusal(11)), "R 11\n");
        assert_eq!(printed(&Answer::Name(7)), "= 7\n");
        assert_eq!(printed(&Answer::Added(1, 2)), "= 1 +2\n");
        assert_eq!(printed(&Answer::Added(0, 0)), "= 0 +0\n");
        assert_eq!(printed(&Answer::Removed(1, 2_047)), "= 1 -2047\n");
        assert_eq!(printed(&Answer::Removed(65_535, 0)), "= 65535 -0\n");
        assert_eq!(printed(&Answer::Value(u32::MAX)), "V 4294967295\n");
        assert_eq!(printed(&Answer::YesNo(true)), "T\n");
        assert_eq!(printed(&Answer::YesNo(false)), "NIL\n");
        assert_eq!(printed(&Answer::List(vec![])), "L 0\n");
        assert_eq!(
            printed(&Answer::List(vec![(5, 2), (6, 0)])),
            "L 2 5:2 6:0\n"
        );
    }

    #[test]
    fn a_line_reads_as_a_call() {
        let call = read_call(b"BOP 1 5 2 60 9", 3).expect("readable");
        let expected = Call {
            operator: 4,
            n: Node(1),
            g: Edge(5),
            m: Node(2),
            v: 60,
            space: Space::Numbered(SpaceName(9)),
            list_length: 3,
        };
        assert_eq!(call, expected);
    }

    #[test]
    fn sus_has_two_numbers() {
        let operator = |line: &[u8]| read_call(line, 0).map(|call| call.operator);
        assert_eq!(operator(b"SUS"), Some(56));
        assert_eq!(operator(b"SUS 1"), Some(57));
        assert_eq!(operator(b"SUS 1 2"), None);
        assert_eq!(operator(b"SUS U"), None);
        assert_eq!(operator(b"SUS -"), None);
    }

    #[test]
    fn a_space_has_three_forms() {
        let space = |line: &[u8]| read_call(line, 0).map(|call| call.space);
        assert_eq!(space(b"SUN"), Some(Space::Universe));
        assert_eq!(space(b"SUN U"), Some(Space::Universe));
        assert_eq!(space(b"SUN -"), Some(Space::Nothing));
        assert_eq!(space(b"SUN 9"), Some(Space::Numbered(SpaceName(9))));
        assert_eq!(space(b"BUS - 9"), Some(Space::Nothing));
        assert_eq!(space(b"SUN --"), None);
    }
}

//! Script lines that don't read as a call, made from lines that do.

use crate::operators::{self, Argument};

use super::Draws;

/// A way to damage a readable line; none where the line has nothing that
/// could be damaged so.
type Damage = fn(&mut Draws, &Line) -> Option<Vec<u8>>;

/// Each kind of damage, by name. All but the last make a line unreadable.
pub const KINDS: [(&str, Damage); 26] = [
    ("empty line", empty_line),
    ("small letters", small_letters),
    ("other letters", other_letters),
    ("VAP", vap),
    ("leading blank", leading_blank),
    ("double blank", double_blank),
    ("trailing blank", trailing_blank),
    ("tab or another white space", other_white_space),
    ("carriage return", carriage_return),
    ("too few arguments", too_few),
    ("too many arguments", too_many),
    ("leading zero", leading_zero),
    ("sign", sign),
    ("name past 65,535", long_name),
    ("value past 4,294,967,295", long_value),
    ("forty digits", forty_digits),
    ("NUL", nul),
    ("high byte", high_byte),
    ("byte beside the digits", beside_digits),
    ("other number", other_number),
    ("U where no space stands", misplaced_universe),
    ("other UNIVERSE", other_universe),
    ("- where no space stands", misplaced_nothing),
    ("other nothing", other_nothing),
    ("- beside a number", glued_nothing),
    ("any byte", any_byte),
];

/// Numbers that don't fit in a name. Cut to 16, 32, 64 or 128 bits, some are
/// 0 or 1.
const LONG_NAMES: [&str; 12] = [
    "65536",
    "65537",
    "65538",
    "70000",
    "99999",
    "100000",
    "131073",
    "4294967295",
    "4294967297",
    "18446744073709551616",
    "18446744073709551617",
    "340282366920938463463374607431768211457",
];

/// The same for a value.
const LONG_VALUES: [&str; 8] = [
    "4294967296",
    "4294967297",
    "4294967300",
    "5000000000",
    "9999999999",
    "10000000000",
    "18446744073709551617",
    "340282366920938463463374607431768211457",
];

const OTHER_LETTERS: [&str; 12] = [
    "CO", "C", "CUNN", "DOGS", "SOGG", "VAN", "CUX", "UUN", "DO", "SANGN", "R", "NIL",
];

const OTHER_NUMBERS: [&str; 9] = ["NIL", "0x1", "1.0", "1,0", "1_0", "1e1", "one", "1-", "5:2"];

/// A readable line in its parts.
pub struct Line<'a> {
    letters: &'a [u8],
    words: Vec<&'a [u8]>,
    /// All arguments that the operator reads.
    arguments: &'static [Argument],
    /// The least number of arguments.
    least: usize,
}

impl<'a> Line<'a> {
    /// None for letters that are no operator's.
    pub fn new(line: &'a [u8]) -> Option<Line<'a>> {
        let mut words = line.split(|&byte| byte == b' ');
        let letters = words.next()?;
        let operator = operators::number(letters)?;
        // SUS alone is 56, and 57 with a node.
        let most = if operator == 56 { 57 } else { operator };
        let arguments = operators::arguments(most);
        let least = match operator {
            1..=50 => arguments.len() - 1,
            56 => 0,
            _ => arguments.len(),
        };
        Some(Line {
            letters,
            words: words.collect(),
            arguments,
            least,
        })
    }

    /// The line with other arguments.
    fn with_words(&self, words: &[&[u8]]) -> Vec<u8> {
        let mut text = self.letters.to_vec();
        for word in words {
            text.push(b' ');
            text.extend_from_slice(word);
        }
        text
    }

    fn text(&self) -> Vec<u8> {
        self.with_words(&self.words)
    }

    /// The line with another word in one place.
    fn with_word(&self, place: usize, word: &[u8]) -> Vec<u8> {
        let mut words = self.words.clone();
        words[place] = word;
        self.with_words(&words)
    }

    /// The place of one of the arguments that are given and chosen.
    fn place(&self, draws: &mut Draws, is_chosen: impl Fn(Argument) -> bool) -> Option<usize> {
        let places: Vec<usize> = (0..self.words.len())
            .filter(|&place| is_chosen(self.arguments[place]))
            .collect();
        (!places.is_empty()).then(|| draws.one_of(&places))
    }

    fn any_place(&self, draws: &mut Draws) -> Option<usize> {
        self.place(draws, |_| true)
    }

    /// The line with some bytes put in anywhere.
    fn with_bytes(&self, draws: &mut Draws, bytes: &[u8]) -> Vec<u8> {
        let mut text = self.text();
        let place = draws.below(text.len() + 1);
        text.splice(place..place, bytes.iter().copied());
        text
    }
}

/// The line damaged in one of the ways that can be.
pub fn damaged(draws: &mut Draws, line: &[u8]) -> Vec<u8> {
    let Some(line) = Line::new(line) else {
        return Vec::new();
    };
    loop {
        let (_, damage) = draws.one_of(&KINDS);
        if let Some(text) = damage(draws, &line) {
            return text;
        }
    }
}

fn empty_line(_: &mut Draws, _: &Line) -> Option<Vec<u8>> {
    Some(Vec::new())
}

/// All letters small, or one.
fn small_letters(draws: &mut Draws, line: &Line) -> Option<Vec<u8>> {
    let count = line.letters.len();
    let mut text = line.text();
    if draws.once_in(2) {
        text[..count].make_ascii_lowercase();
    } else {
        text[draws.below(count)].make_ascii_lowercase();
    }
    Some(text)
}

fn other_letters(draws: &mut Draws, line: &Line) -> Option<Vec<u8>> {
    let letters = draws.one_of(&OTHER_LETTERS).as_bytes();
    Some(
        Line {
            letters,
            words: line.words.clone(),
            ..*line
        }
        .text(),
    )
}

fn vap(draws: &mut Draws, _: &Line) -> Option<Vec<u8>> {
    let arguments = ["1 5 2", "1 5 2 U", "1 1 1 1"];
    Some(format!("VAP {}", draws.one_of(&arguments)).into_bytes())
}

fn leading_blank(_: &mut Draws, line: &Line) -> Option<Vec<u8>> {
    Some([b" ", &line.text()[..]].concat())
}

fn double_blank(draws: &mut Draws, line: &Line) -> Option<Vec<u8>> {
    let place = line.any_place(draws)?;
    let word = [b" ", line.words[place]].concat();
    Some(line.with_word(place, &word))
}

fn trailing_blank(_: &mut Draws, line: &Line) -> Option<Vec<u8>> {
    Some([&line.text()[..], b" "].concat())
}

/// Put in before an argument, in place of its blank, or at an end.
fn other_white_space(draws: &mut Draws, line: &Line) -> Option<Vec<u8>> {
    let white = [draws.one_of(b"\t\t\t\x0b\x0c")];
    let text = line.text();
    let first_blank = text.iter().position(|&byte| byte == b' ');
    match (draws.below(3), first_blank) {
        (0, Some(place)) => Some([&text[..place], &white, &text[place + 1..]].concat()),
        (1, _) => Some([&white, &text[..]].concat()),
        _ => Some([&text[..], &white].concat()),
    }
}

fn carriage_return(_: &mut Draws, line: &Line) -> Option<Vec<u8>> {
    Some([&line.text()[..], b"\r"].concat())
}

fn too_few(draws: &mut Draws, line: &Line) -> Option<Vec<u8>> {
    if line.least == 0 {
        return None;
    }
    let count = draws.below(line.least);
    Some(line.with_words(&line.words[..count]))
}

/// One or a few more than the operator reads.
fn too_many(draws: &mut Draws, line: &Line) -> Option<Vec<u8>> {
    let mut words = line.words.clone();
    let more = 1 + draws.below(3) * draws.below(3);
    words.resize(line.arguments.len() + more, b"1");
    Some(line.with_words(&words))
}

fn leading_zero(draws: &mut Draws, line: &Line) -> Option<Vec<u8>> {
    let place = line.any_place(draws)?;
    let word = [b"0", line.words[place]].concat();
    Some(line.with_word(place, &word))
}

fn sign(draws: &mut Draws, line: &Line) -> Option<Vec<u8>> {
    let place = line.any_place(draws)?;
    let word = [&[draws.one_of(b"+-")], line.words[place]].concat();
    Some(line.with_word(place, &word))
}

fn long_name(draws: &mut Draws, line: &Line) -> Option<Vec<u8>> {
    let place = line.place(draws, |argument| argument != Argument::Value)?;
    Some(line.with_word(place, draws.one_of(&LONG_NAMES).as_bytes()))
}

fn long_value(draws: &mut Draws, line: &Line) -> Option<Vec<u8>> {
    let place = line.place(draws, |argument| argument == Argument::Value)?;
    Some(line.with_word(place, draws.one_of(&LONG_VALUES).as_bytes()))
}

fn forty_digits(draws: &mut Draws, line: &Line) -> Option<Vec<u8>> {
    let place = line.any_place(draws)?;
    let mut digits = vec![draws.one_of(b"123456789")];
    digits.extend((1..40).map(|_| draws.one_of(b"0123456789")));
    Some(line.with_word(place, &digits))
}

fn nul(draws: &mut Draws, line: &Line) -> Option<Vec<u8>> {
    Some(line.with_bytes(draws, b"\0"))
}

/// Among them letters of two bytes, a superscript digit and a hard blank.
fn high_byte(draws: &mut Draws, line: &Line) -> Option<Vec<u8>> {
    let bytes: [&[u8]; 6] = [b"\xff", b"\x80", b"\xa0", b"\xb2", b"\xc3\x9c", b"\xc2\xa0"];
    let bytes = draws.one_of(&bytes);
    Some(line.with_bytes(draws, bytes))
}

/// The bytes before 0 and after 9, in an argument.
fn beside_digits(draws: &mut Draws, line: &Line) -> Option<Vec<u8>> {
    let place = line.any_place(draws)?;
    let mut word = line.words[place].to_vec();
    word[draws.below(line.words[place].len())] = draws.one_of(b"/:");
    Some(line.with_word(place, &word))
}

fn other_number(draws: &mut Draws, line: &Line) -> Option<Vec<u8>> {
    let place = line.any_place(draws)?;
    Some(line.with_word(place, draws.one_of(&OTHER_NUMBERS).as_bytes()))
}

fn misplaced_universe(draws: &mut Draws, line: &Line) -> Option<Vec<u8>> {
    let place = line.place(draws, |argument| argument != Argument::Space)?;
    Some(line.with_word(place, b"U"))
}

/// Words for UNIVERSE that are none, where a space stands.
fn other_universe(draws: &mut Draws, line: &Line) -> Option<Vec<u8>> {
    let place = line.place(draws, |argument| argument == Argument::Space)?;
    let words = ["u", "UU", "U1", "1U", "UNIVERSE", "V"];
    Some(line.with_word(place, draws.one_of(&words).as_bytes()))
}

/// In the place of n, g, m or v, or after SUS.
fn misplaced_nothing(draws: &mut Draws, line: &Line) -> Option<Vec<u8>> {
    match line.place(draws, |argument| argument != Argument::Space) {
        Some(place) => Some(line.with_word(place, b"-")),
        None => (line.letters == b"SUS").then(|| line.with_words(&[b"-"])),
    }
}

/// Words for nothing that are none, and `-` with another space, where a space
/// stands.
fn other_nothing(draws: &mut Draws, line: &Line) -> Option<Vec<u8>> {
    let place = line.place(draws, |argument| argument == Argument::Space)?;
    let words = [
        "--", "---", "-0", "-U", "U-", "+", "_", "- -", "- U", "- 9", "9 -", "\u{2013}",
    ];
    Some(line.with_word(place, draws.one_of(&words).as_bytes()))
}

/// `-` before or after an argument, without a blank, or for the blank before
/// it.
fn glued_nothing(draws: &mut Draws, line: &Line) -> Option<Vec<u8>> {
    let place = line.any_place(draws)?;
    let word = line.words[place];
    match draws.below(3) {
        0 => Some(line.with_word(place, &[b"-", word].concat())),
        1 => Some(line.with_word(place, &[word, b"-"].concat())),
        _ => {
            let mut text = line.with_words(&line.words[..place]);
            for word in &line.words[place..] {
                text.push(b'-');
                text.extend_from_slice(word);
            }
            Some(text)
        }
    }
}

/// One byte replaced by another, which can leave the line readable.
fn any_byte(draws: &mut Draws, line: &Line) -> Option<Vec<u8>> {
    let mut text = line.text();
    let place = draws.below(text.len());
    text[place] = draws.below(256) as u8;
    Some(text)
}

#[cfg(test)]
mod tests {
    use super::*;
    use crate::script::read_call;

    const READABLE: [&str; 16] = [
        "COP 1 5 2",
        "CAP 1 5 2 U",
        "BOP 1 5 2 60 9",
        "DOGG 1 5",
        "SOGN 1 2 3",
        "CUN 1",
        "BUN 65535 0",
        "SUN",
        "CUS 9",
        "BUS U 4294967295",
        "SUS",
        "SUS 1",
        "CAP 1 5 2 -",
        "SUN -",
        "BUN 1 0 -",
        "BUS - 60",
    ];

    #[test]
    fn damaged_lines_are_unreadable() {
        let (_, certain) = KINDS.split_last().expect("there are kinds");
        for (name, damage) in certain {
            let mut made = 0;
            for (place, line) in READABLE.iter().enumerate() {
                assert!(read_call(line.as_bytes(), 0).is_some(), "{line}");
                let line = Line::new(line.as_bytes()).expect("an operator");
                for draw in 0..50 {
                    let draws = &mut Draws::new(draw, 9, place as u64);
                    let Some(text) = damage(draws, &line) else {
                        continue;
                    };
                    made += 1;
                    assert!(read_call(&text, 0).is_none(), "{name}: {text:?}");
                    assert!(!text.contains(&b'\n'), "{name}: {text:?}");
                }
            }
            assert!(made >= 100, "{name}: {made}");
        }
    }
}

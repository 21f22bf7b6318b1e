//! `docs/STORE.md`: its drawn buffers, the changes to them, its table of steps.

mod common;

use common::page;
use gaffdamson_reference::library::{self, Library};
use gaffdamson_reference::machine::{Key, Machine, Value};
use gaffdamson_reference::operators::{self, Argument};
use gaffdamson_reference::{buffer, chained, packed, script};

/// What every word of the drawn buffer held before it was prepared.
const BEFORE: u32 = 3;

/// The words of a drawn buffer; none where the page leaves a word open.
fn drawn(page: &str, name: &str) -> Vec<Option<u32>> {
    let mut words = Vec::new();
    for line in page::block(page, name) {
        let parts: Vec<&str> = line.split('|').collect();
        let [places, numbers, _] = parts[..] else {
            panic!("not a line of a drawing: {line}");
        };
        let first = words.len();
        for number in numbers.split_whitespace() {
            words.push((number != "x").then(|| number.parse().expect("a word")));
        }
        let expected = format!("words {first:2} to {:2}", words.len() - 1);
        assert_eq!(places.trim_end(), expected);
    }
    words
}

/// The words of the example, which leaves none open.
fn example(page: &str) -> Vec<u32> {
    let words = drawn(page, "buffer").into_iter();
    words.map(|word| word.expect("a word")).collect()
}

/// The tuples that the page lists.
fn listed_tuples(page: &str) -> Vec<Vec<u32>> {
    page::block(page, "tuples")
        .into_iter()
        .map(|line| {
            let words = line.split_whitespace().filter(|word| *word != "value");
            let numbers = words.take(5).map(|word| word.parse().expect("a number"));
            numbers.collect()
        })
        .collect()
}

fn numbers_of((key, value): (Key, Value)) -> Vec<u32> {
    let names = [key.s.0, key.n.0, key.g.0, key.m.0].map(u32::from);
    names.into_iter().chain([value]).collect()
}

#[test]
fn the_example_is_a_store_with_the_listed_tuples() {
    let page = page::read("STORE.md");
    let words = example(&page);
    assert!(buffer::is_store(&words));
    assert!(chained::is_store(&words));
    let tuples = buffer::tuples(&words).into_iter().map(numbers_of);
    assert_eq!(tuples.collect::<Vec<_>>(), listed_tuples(&page));
    let free = words[0] - words[3];
    assert_eq!(buffer::free_count(&words), free as usize);
}

#[test]
fn the_calls_of_the_example_make_the_listed_tuples() {
    let page = page::read("STORE.md");
    let capacity = example(&page)[0];
    let mut machine = Machine::new(capacity as usize);
    for line in page::block(&page, "calls") {
        machine.step(&script::read_call(line.as_bytes(), 0).expect("a call"));
    }
    let tuples = machine.tuples().map(numbers_of);
    assert_eq!(tuples.collect::<Vec<_>>(), listed_tuples(&page));
}

/// Makes the calls of the example, which must leave its very words.
fn make_example(library: &Library) {
    let page = page::read("STORE.md");
    let expected = example(&page);
    let mut words = vec![BEFORE; expected.len()];
    assert_eq!((library.prepare)(&mut words), Ok(expected[0]));
    for line in page::block(&page, "calls") {
        let call = script::read_call(line.as_bytes(), 0).expect("a call");
        let fields = packed::fields(&call);
        library.call.make(&mut words, &fields, &mut []);
    }
    assert_eq!(words, expected);
}

#[test]
fn the_hand_written_store_makes_the_example() {
    make_example(&library::HAND_WRITTEN);
}

#[cfg(feature = "rattle")]
#[test]
fn the_proved_store_makes_the_example() {
    make_example(&library::PROVED);
}

#[test]
fn the_fresh_buffer_is_what_preparing_leaves() {
    let page = page::read("STORE.md");
    let expected = drawn(&page, "fresh");
    for prepare in [buffer::prepare, chained::prepare] {
        let mut words = vec![BEFORE; expected.len()];
        assert_eq!(prepare(&mut words).ok(), expected[0]);
        assert!(buffer::is_store(&words));
        for (place, (word, expected)) in words.iter().zip(&expected).enumerate() {
            assert!(expected.is_none_or(|expected| expected == *word), "{place}");
        }
    }
}

#[test]
fn each_change_does_what_the_page_says() {
    let page = page::read("STORE.md");
    let lines: Vec<&str> = page.lines().collect();
    let rows = page::rows(&lines, "| change | is it a store? | why |");
    assert!(rows.len() >= 15, "only {} changes were found", rows.len());
    for row in rows {
        let change = page::code(row[0]);
        let (place, word) = change
            .strip_prefix("word ")
            .and_then(|rest| rest.split_once(" = "))
            .expect("a change");
        let place: usize = place.parse().expect("a place");
        let mut words = example(&page);
        let before = words[place];
        words[place] = word.parse().expect("a word");
        assert_ne!(words[place], before, "{change} changes nothing");
        let expected = match row[1] {
            "yes" => true,
            "no" => false,
            other => panic!("{change}: {other}"),
        };
        assert_eq!(buffer::is_store(&words), expected, "{change}");
        assert_eq!(chained::is_store(&words), expected, "{change}");
    }
}

fn letter(argument: &Argument) -> &'static str {
    match argument {
        Argument::FirstNode => "n",
        Argument::Edge => "g",
        Argument::SecondNode => "m",
        Argument::Value => "v",
        Argument::Space => "s",
    }
}

#[test]
fn the_steps_are_those_of_all_operators() {
    let page = page::read("STORE.md");
    let steps = page::section(&page, "Steps");
    let header = "| numbers | operators | reads | what it does | answer |";
    let mut next = 1..=57;
    for row in page::rows(&steps, header) {
        let reads: Vec<&str> = row[2].split_whitespace().collect();
        let letters = row[1].split_whitespace();
        for (number, letters) in row[0].split_whitespace().zip(letters) {
            let operator = number.parse().expect("a number");
            assert_eq!(next.next(), Some(operator));
            assert_eq!(operators::letters(operator), Some(letters));
            let arguments = operators::arguments(operator).iter().map(letter);
            assert!(arguments.eq(reads.iter().copied()), "{letters}");
            assert_eq!(operators::writes(operator), row[3] != "–", "{letters}");
        }
    }
    assert_eq!(next.next(), None);
}

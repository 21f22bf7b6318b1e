//! The proved store, through its static library, beside the tuple machine.
#![cfg(feature = "rattle")]

mod common;

use common::lent::{answer_of, UNWRITTEN};
use gaffdamson_reference::library::{compare, lendable, PROVED};
use gaffdamson_reference::machine::{Answer, Call};
use gaffdamson_reference::packed::{self, WORDS_IN_AN_ANSWER};
use gaffdamson_reference::random::{buffers, lists, Draws};
use gaffdamson_reference::{buffer, load};

/// The answers of a run, whose lists stand one after the other.
fn answers_of(calls: &[Call], answers: &[u32], lists: &[u32]) -> Vec<Answer> {
    let mut rest = lists;
    let mut all = Vec::new();
    for (call, words) in calls.iter().zip(answers.chunks(WORDS_IN_AN_ANSWER)) {
        let (list, others) = rest.split_at(call.list_length);
        rest = others;
        all.push(answer_of([words[0], words[1], words[2]], list));
    }
    all
}

#[test]
fn runs_of_calls_are_answered_alike() {
    for place in 0..500 {
        let mut draws = Draws::new(11, 6, place);
        let capacity = 1 + draws.below(if place % 5 == 0 { 2_048 } else { 40 });
        let length = draws.below(80);
        let run = lists::run(&mut draws, capacity, length);
        let calls: Vec<Call> = run.calls.iter().map(lendable).collect();
        let room = calls.iter().map(|call| call.list_length).sum();
        let packed: Vec<u32> = calls.iter().flat_map(packed::call).collect();
        let mut words = vec![7; 4 + 6 * capacity + place as usize % 6];
        assert_eq!(buffer::prepare(&mut words), Ok(capacity as u32));
        let mut answers = vec![UNWRITTEN; WORDS_IN_AN_ANSWER * calls.len()];
        let mut lists = vec![UNWRITTEN; room];
        assert_eq!(
            (PROVED.run)(&mut words, &packed, &mut answers, &mut lists),
            0
        );
        assert_eq!(answers_of(&calls, &answers, &lists), run.answers);
        let tuples: Vec<_> = run.machine.tuples().collect();
        assert_eq!(buffer::tuples(&words), tuples);
    }
}

/// One call that changes nothing: 0 from a store, else 1, and no word changes.
#[test]
fn buffers_are_judged_alike() {
    let call = Call {
        operator: 54,
        ..load::lists_of_nodes(1)[0]
    };
    for place in 0..20_000 {
        let mut words = buffers::draw(&mut Draws::new(11, 7, place));
        let before = words.clone();
        let mut lists = vec![UNWRITTEN; call.list_length];
        let mut answers = [0; WORDS_IN_AN_ANSWER];
        let answer = (PROVED.run)(&mut words, &packed::call(&call), &mut answers, &mut lists);
        let expected = u32::from(!buffer::is_store(&words));
        assert_eq!(answer, expected, "{words:?}");
        assert_eq!(words, before);
    }
}

/// 9 where the answers or the lists have one word too few, and 1 before 9; no
/// word changes.
#[test]
fn a_run_without_room_is_refused() {
    let calls = load::lists_of_nodes(3);
    let packed: Vec<u32> = calls.iter().flat_map(packed::call).collect();
    let room: usize = calls.iter().map(|call| call.list_length).sum();
    let words_of_answers = WORDS_IN_AN_ANSWER * calls.len();
    let mut store = vec![0; 4 + 6 * 10];
    assert_eq!(buffer::prepare(&mut store), Ok(10));
    let none = vec![0; 4 + 6 * 10];
    for (words, answers, lists, expected) in [
        (&store, words_of_answers - 1, room, 9),
        (&store, words_of_answers, room - 1, 9),
        (&none, words_of_answers - 1, room - 1, 1),
        (&store, words_of_answers, room, 0),
    ] {
        let mut words_left = words.clone();
        let mut answers_left = vec![UNWRITTEN; answers];
        let mut lists_left = vec![UNWRITTEN; lists];
        let given = (PROVED.run)(&mut words_left, &packed, &mut answers_left, &mut lists_left);
        assert_eq!(given, expected);
        if expected != 0 {
            assert_eq!(&words_left, words);
            assert_eq!(answers_left, vec![UNWRITTEN; answers]);
            assert_eq!(lists_left, vec![UNWRITTEN; lists]);
        }
    }
}

/// Calls and buffers of all kinds, by all functions.
#[test]
fn the_library_does_as_the_machine() {
    let found = compare(&PROVED, 10_000, 1_000, 1);
    assert_eq!(found.failed, 0, "{found}");
}

//! The proved store, through its static library.

use gaffdamson::{AnswerWords, CallWords, Pair};

use super::{Library, OneCall};
use crate::packed::{self, Fields};

/// The proved store.
pub const PROVED: Library = Library {
    prepare,
    is_store: gaffdamson::is_store,
    call: OneCall::InWords(call),
    call_pairs: OneCall::InWords(call_pairs),
    run,
};

fn prepare(store: &mut [u32]) -> Result<u32, u32> {
    gaffdamson::prepare(store).map_err(|refusal| refusal.0)
}

fn call(store: &mut [u32], call: &Fields, list: &mut [u32]) -> packed::AnswerWords {
    words_of(gaffdamson::call_words(store, call_of(call), list))
}

fn call_pairs(store: &mut [u32], call: &Fields, list: &mut [u32]) -> packed::AnswerWords {
    let mut pairs: Vec<Pair> = list.iter().map(|&entry| Pair::from(entry)).collect();
    let answer = gaffdamson::call_words_pairs(store, call_of(call), &mut pairs);
    for (entry, pair) in list.iter_mut().zip(pairs) {
        *entry = pair.into();
    }
    words_of(answer)
}

fn run(store: &mut [u32], calls: &[u32], answers: &mut [u32], lists: &mut [u32]) -> u32 {
    match gaffdamson::run(store, calls, answers, lists) {
        Ok(()) => 0,
        Err(refusal) => refusal.0,
    }
}

fn call_of([operator, n, g, m, value_form, v, space_form, s]: &Fields) -> CallWords {
    CallWords {
        operator: *operator,
        n: *n,
        g: *g,
        m: *m,
        value_form: *value_form,
        v: *v,
        space_form: *space_form,
        s: *s,
    }
}

fn words_of(answer: AnswerWords) -> packed::AnswerWords {
    [answer.kind, answer.first, answer.second]
}

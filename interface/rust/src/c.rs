//! The C functions of the static library, over slices. This module has all the
//! unsafe code of the crate.
//!
//! SAFETY of every call here: each pointer and length are those of a slice that
//! is borrowed until the call is over, mutably where it is written, so they are
//! valid, aligned, not null even where the length is 0, and do not overlap. The
//! structs have the layout of C and go by value; any words in them are a call.
//! The functions ask for nothing else, stay within the slices, keep no pointer
//! and do not unwind.

use crate::words::{AnswerWords, CallWords};
use crate::Pair;

mod library {
    use super::{AnswerWords, CallWords, Pair};

    extern "C" {
        pub fn gaffdamson_prepare(store: *mut u32, store_length: usize) -> AnswerWords;

        pub fn gaffdamson_is_store(store: *const u32, store_length: usize) -> u32;

        pub fn gaffdamson_call(
            store: *mut u32,
            store_length: usize,
            call: CallWords,
            list: *mut u32,
            list_length: usize,
        ) -> AnswerWords;

        pub fn gaffdamson_call_pairs(
            store: *mut u32,
            store_length: usize,
            call: CallWords,
            list: *mut Pair,
            list_length: usize,
        ) -> AnswerWords;

        pub fn gaffdamson_run(
            store: *mut u32,
            store_length: usize,
            calls: *const u32,
            calls_length: usize,
            answers: *mut u32,
            answers_length: usize,
            lists: *mut u32,
            lists_length: usize,
        ) -> u32;
    }
}

pub fn prepare(store: &mut [u32]) -> AnswerWords {
    // SAFETY: see the top of the module.
    unsafe { library::gaffdamson_prepare(store.as_mut_ptr(), store.len()) }
}

pub fn is_store(store: &[u32]) -> u32 {
    // SAFETY: see the top of the module; the function only reads.
    unsafe { library::gaffdamson_is_store(store.as_ptr(), store.len()) }
}

pub fn call(store: &mut [u32], call: CallWords, list: &mut [u32]) -> AnswerWords {
    // SAFETY: see the top of the module.
    unsafe {
        library::gaffdamson_call(
            store.as_mut_ptr(),
            store.len(),
            call,
            list.as_mut_ptr(),
            list.len(),
        )
    }
}

pub fn call_pairs(store: &mut [u32], call: CallWords, list: &mut [Pair]) -> AnswerWords {
    // SAFETY: see the top of the module; a pair has the layout of C.
    unsafe {
        library::gaffdamson_call_pairs(
            store.as_mut_ptr(),
            store.len(),
            call,
            list.as_mut_ptr(),
            list.len(),
        )
    }
}

pub fn run(store: &mut [u32], calls: &[u32], answers: &mut [u32], lists: &mut [u32]) -> u32 {
    // SAFETY: see the top of the module; the calls are only read.
    unsafe {
        library::gaffdamson_run(
            store.as_mut_ptr(),
            store.len(),
            calls.as_ptr(),
            calls.len(),
            answers.as_mut_ptr(),
            answers.len(),
            lists.as_mut_ptr(),
            lists.len(),
        )
    }
}

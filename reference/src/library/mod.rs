//! The functions of the static library, and their comparison with this
//! implementation.

mod beside;
mod comparison;
mod found;
#[cfg(feature = "rattle")]
mod proved;

use crate::chained;
use crate::machine::Call;
use crate::packed::{self, AnswerWords, Fields};

pub use beside::{lendable, LONGEST_LIST};
pub use comparison::compare;
pub use found::Found;
#[cfg(feature = "rattle")]
pub use proved::PROVED;

/// Makes a fresh store of a buffer and gives C, or the refusal.
pub type Preparing = fn(store: &mut [u32]) -> Result<u32, u32>;

/// Whether a buffer is a store.
pub type Judging = fn(store: &[u32]) -> bool;

/// Makes a call on any buffer, with a list of packed pairs.
#[derive(Clone, Copy)]
pub enum OneCall {
    /// From words to words, as the library does.
    InWords(fn(store: &mut [u32], call: &Fields, list: &mut [u32]) -> AnswerWords),
    /// For what has calls and answers of its own: the words are read and
    /// written here.
    Read(fn(store: &mut [u32], call: &Call, list: &mut [u32]) -> chained::Answer),
}

impl OneCall {
    pub fn make(self, store: &mut [u32], call: &Fields, list: &mut [u32]) -> AnswerWords {
        match self {
            OneCall::InWords(make) => make(store, call, list),
            OneCall::Read(make) => {
                let call = packed::call_of_fields(call, list.len());
                packed::words_of(make(store, &call, list))
            }
        }
    }
}

/// Makes a whole list of calls, from words to words (`packed`). Gives 0, or 1
/// where the buffer is not a store, or 9 where there is too little room.
pub type WholeList =
    fn(store: &mut [u32], calls: &[u32], answers: &mut [u32], lists: &mut [u32]) -> u32;

/// The functions, of the library or of what takes its place.
#[derive(Clone, Copy)]
pub struct Library {
    pub prepare: Preparing,
    pub is_store: Judging,
    pub call: OneCall,
    /// The same by way of a list of pair structs.
    pub call_pairs: OneCall,
    pub run: WholeList,
}

/// The hand-written store in the place of the library.
pub const HAND_WRITTEN: Library = Library {
    prepare: chained::prepare,
    is_store: chained::is_store,
    call: OneCall::Read(chained::execute),
    call_pairs: OneCall::Read(chained::execute),
    run: chained::run,
};

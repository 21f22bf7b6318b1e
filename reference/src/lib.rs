//! A second, independent implementation of the graph store of document 01, with requests 1 and 2 of document 02.
//!
//! It is written from these (and the manual, GRASPER 1.0, 1978, where
//! document 01 points to it), to be plainly right rather than fast.

pub mod buffer;
pub mod chained;
pub mod compare;
pub mod inputs;
pub mod library;
pub mod load;
pub mod machine;
pub mod operators;
pub mod packed;
pub mod random;
pub mod raw;
pub mod script;

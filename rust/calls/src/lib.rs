//! What a call takes, the stops and the tally of its answer, and where the store's index has a key: shared by all Rust crates but the second
//! evaluator, which rests on nothing.
//!
//! It is a crate because the twin, which does not link the library, shares it with the crates that do.
//!
//! "Document 01" is the paper "Settings sheets evaluated by Saiga".
#![forbid(unsafe_code)]
#![warn(missing_docs)]
#![cfg_attr(not(test), no_std)]

pub mod index;
mod stops;
pub mod tally;

pub use stops::{Origin, Refusal, Stop};
pub use tally::{Rows, Tally, TALLY_ROWS};

/// One question call, of any bytes and numbers.
#[derive(Debug)]
pub struct Call<'a> {
    /// The sheet's bytes.
    pub sheet: &'a [u8],
    /// The question's bytes.
    pub question: &'a [u8],
    /// The store's bytes, lent for the call. They are left as the answer's run leaves them.
    pub store: &'a mut [u8],
    /// How many entries of the store are kept.
    pub kept: u64,
    /// How many counted steps the question may take.
    pub budget: u64,
}

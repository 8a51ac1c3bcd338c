//! Whole calls, with all their checks. Those with their scratch on the stack reach for it before.
#![allow(unsafe_code)]

use std::fmt;
use std::hint::black_box;
use std::mem::MaybeUninit;

use calls::{Call, Refusal, Rows, TALLY_ROWS};
use sofretu_sys::{CheckedSheet, CheckedStore, Fields, Run};

use crate::answer::Answer;
use crate::sheet::verdict;

/// Memory for whole calls, made once: for those who lend bytes of their own and check them at every question. It is some 230 KB.
#[derive(Clone, Default)]
pub struct Scratch {
    sheet: CheckedSheet,
    store: CheckedStore,
    run: Run,
}

impl Scratch {
    /// The memory, which no call has used.
    #[must_use]
    pub fn new() -> Scratch {
        Scratch::default()
    }

    /// As [`ask`], with this memory in place of the stack's.
    ///
    /// # Panics
    ///
    /// As [`ask`].
    pub fn ask(&mut self, call: Call<'_>) -> Answer {
        answered(|tally| {
            sofretu_sys::ask_in(call, &mut self.sheet, &mut self.store, &mut self.run, tally)
        })
    }
}

impl fmt::Debug for Scratch {
    fn fmt(&self, f: &mut fmt::Formatter<'_>) -> fmt::Result {
        f.debug_struct("Scratch").finish_non_exhaustive()
    }
}

/// One question with all its checks, of any bytes: the answer, and in the call's store what is lent back.
///
/// It takes nothing from the heap and up to 512 KB from the stack. For more than a few questions open a [`Session`](crate::Session).
///
/// ```
/// use sofretu::{ask, Call, Value};
///
/// // The shortest sheet, and a question that is a number.
/// let call = Call { sheet: &[0x5A], question: &[0x12, 5, 0, 0, 0], store: &mut [], kept: 0, budget: 0 };
/// assert_eq!(ask(call).value, Ok(Value::Int(5)));
/// ```
///
/// # Panics
///
/// If the library brings what is no answer of document 01, which the proofs rule out.
pub fn ask(call: Call<'_>) -> Answer {
    reach_down_the_stack();
    // SAFETY: the stack was reached for.
    answered(|tally| unsafe { sofretu_sys::ask(call, tally) })
}

/// As [`ask`], by the library's own `sofretu_ask`, which clears its scratch: some microseconds more. It is for those who lend no memory
/// that was not cleared.
///
/// # Panics
///
/// As [`ask`].
pub fn ask_cleared(call: Call<'_>) -> Answer {
    reach_down_the_stack();
    // SAFETY: the stack was reached for.
    answered(|tally| unsafe { sofretu_sys::ask_cleared(call, tally) })
}

/// Whether a call is refused before its run. It writes nothing, and takes nothing from the heap and up to 512 KB from the stack.
///
/// # Errors
///
/// The first of stops 1 to 13 that holds.
pub fn check(call: &Call<'_>) -> Result<(), Refusal> {
    reach_down_the_stack();
    // SAFETY: the stack was reached for.
    verdict(unsafe { sofretu_sys::check(call) })
}

/// Touches every page that a call with its scratch on the stack can need. The library's code need not touch them in order, and
/// on a small stack could step over the guard page; Rust's does, so that such a stack ends the program there.
#[inline(never)]
fn reach_down_the_stack() {
    let room = MaybeUninit::<[u8; 512 * 1024]>::uninit();
    black_box(&room);
}

/// The answer of a call that is lent a tally.
#[inline]
pub(crate) fn answered(call: impl FnOnce(&mut Rows) -> Fields) -> Answer {
    let mut rows = [0; TALLY_ROWS];
    let fields = call(&mut rows);
    Answer::from_fields(fields, &rows)
        .unwrap_or_else(|| panic!("no answer of document 01: {fields:?}, {rows:?}"))
}

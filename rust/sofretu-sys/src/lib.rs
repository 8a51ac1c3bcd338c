//! The C calls of the static library that `scripts/build.sh` writes, and each of them over slices and the four kinds of scratch.
//!
//! A call reads what a slice spans and writes what it is lent as `&mut`; the borrows give it that for as long as it runs. It asks
//! nothing of what lent memory holds, unless its function says so. For safe types over these calls see the crate `sofretu`.
//!
//! What the scratch is made of is known here and in `include/sofretu.h` only.
#![deny(unsafe_op_in_unsafe_fn)]
#![warn(missing_docs)]

use std::mem::MaybeUninit;

pub use calls::{Call, Rows};
#[doc(hidden)]
pub use places::Place;

#[cfg(test)]
mod any_numbers;
mod places;

/// Document 01's six fields of an answer: number, place, type, value, steps, kept.
pub type Fields = [i64; 6];

/// What a check finds: the number of the first stop that holds, or 0; and its place.
pub type Found = (u32, u64);

/// How many words a checked sheet has.
const SHEET: usize = 33_298;
/// How many bytes are noted of a sheet.
const NOTES: usize = 65_536;
/// How many words a checked store has.
const STORE: usize = 9_216;
/// How many words a run has.
const RUN: usize = 10_176;
/// From here on a run reads words that it has not written: the index of its open forms. Any numbers will do, so they are written once, when the run's
/// memory is made, and never cleared.
const RUN_READ_FIRST: usize = 8_576;

/// What the check of a sheet leaves for the questions to it.
#[derive(Clone)]
pub struct CheckedSheet {
    /// How many attributes the sheet declares; 0 of a refused one.
    pub attributes: u64,
    /// How many nodes the sheet declares; 0 of a refused one.
    pub nodes: u64,
    words: Box<[u16; SHEET]>,
    notes: Box<[u8; NOTES]>,
}

/// What the check of a store leaves for the questions that are lent it.
#[derive(Clone)]
pub struct CheckedStore {
    words: Box<[u16; STORE]>,
}

/// What a run works in.
#[derive(Clone)]
pub struct Run {
    words: Box<[u64; RUN]>,
}

impl Default for CheckedSheet {
    fn default() -> CheckedSheet {
        CheckedSheet {
            attributes: 0,
            nodes: 0,
            words: zeros(),
            notes: zeros(),
        }
    }
}

impl Default for CheckedStore {
    fn default() -> CheckedStore {
        CheckedStore { words: zeros() }
    }
}

impl Default for Run {
    fn default() -> Run {
        Run { words: zeros() }
    }
}

/// Made on the heap from the start: some are too large to pass through the stack without thought.
fn zeros<T: Clone + Default, const N: usize>() -> Box<[T; N]> {
    let words = vec![T::default(); N].into_boxed_slice();
    words.try_into().unwrap_or_else(|_| unreachable!("N words"))
}

// As `crates/sofretu/src/lib.rt` exports them and `include/sofretu.h` declares them.
extern "C" {
    fn sofretu_version() -> u32;

    fn sofretu_ask(
        sheet: *const u8,
        sheet_len: usize,
        question: *const u8,
        question_len: usize,
        store: *mut u8,
        store_len: usize,
        kept: u64,
        budget: u64,
        answer: *mut [i64; 6],
        tally: *mut [u64; 34],
    );

    fn sofretu_ask_in(
        sheet: *const u8,
        sheet_len: usize,
        question: *const u8,
        question_len: usize,
        store: *mut u8,
        store_len: usize,
        kept: u64,
        budget: u64,
        checked_sheet: *mut [u16; SHEET],
        noted_sheet: *mut [u8; NOTES],
        checked_store: *mut [u16; STORE],
        run: *mut [u64; RUN],
        answer: *mut [i64; 6],
        tally: *mut [u64; 34],
    );

    fn sofretu_check_sheet(
        sheet: *const u8,
        sheet_len: usize,
        checked_sheet: *mut [u16; SHEET],
        noted_sheet: *mut [u8; NOTES],
        found: *mut [u64; 3],
    ) -> u32;

    fn sofretu_check_store(
        sheet: *const u8,
        sheet_len: usize,
        checked_sheet: *const [u16; SHEET],
        store: *const u8,
        store_len: usize,
        kept: u64,
        checked_store: *mut [u16; STORE],
        place: *mut u64,
    ) -> u32;

    fn sofretu_ask_checked(
        sheet: *const u8,
        sheet_len: usize,
        checked_sheet: *const [u16; SHEET],
        noted_sheet: *const [u8; NOTES],
        question: *const u8,
        question_len: usize,
        store: *mut u8,
        store_len: usize,
        kept: u64,
        budget: u64,
        checked_store: *mut [u16; STORE],
        run: *mut [u64; RUN],
        answer: *mut [i64; 6],
        tally: *mut [u64; 34],
    );

    fn sofretu_check(
        sheet: *const u8,
        sheet_len: usize,
        question: *const u8,
        question_len: usize,
        store: *const u8,
        store_len: usize,
        kept: u64,
        budget: u64,
        place: *mut u64,
    ) -> u32;
}

/// The version of the library that is linked: major * 10000 + minor * 100 + patch.
#[inline]
#[must_use]
pub fn version() -> u32 {
    // SAFETY: the call takes nothing and requires nothing.
    unsafe { sofretu_version() }
}

/// One question with all its checks. Its scratch is on the stack. Nothing is asked of what it holds, so that it is not cleared but for the words that
/// are read before they are written. `tally` is filled whole, whatever it held.
///
/// # Safety
///
/// At least 512 KB of the stack are free.
#[inline]
pub unsafe fn ask(call: Call, tally: &mut Rows) -> Fields {
    let mut sheet = MaybeUninit::uninit();
    let mut notes = MaybeUninit::uninit();
    let mut store = MaybeUninit::uninit();
    let mut run = MaybeUninit::<[u64; RUN]>::uninit();
    // SAFETY: the four are this call's. The stack is the caller's to see to.
    unsafe {
        let read_first = run.as_mut_ptr().cast::<u64>().add(RUN_READ_FIRST);
        read_first.write_bytes(0, RUN - RUN_READ_FIRST);
        ask_within(
            call,
            sheet.as_mut_ptr(),
            notes.as_mut_ptr(),
            store.as_mut_ptr(),
            run.as_mut_ptr(),
            tally,
        )
    }
}

/// As [`ask`], by the library's call that makes its scratch itself and clears it.
///
/// # Safety
///
/// As [`ask`].
#[inline]
pub unsafe fn ask_cleared(call: Call, tally: &mut Rows) -> Fields {
    let mut answer = [0; 6];
    // SAFETY: all is borrowed, for reading or writing as the call has it. The stack is the caller's to see to.
    unsafe {
        sofretu_ask(
            call.sheet.as_ptr(),
            call.sheet.len(),
            call.question.as_ptr(),
            call.question.len(),
            call.store.as_mut_ptr(),
            call.store.len(),
            call.kept,
            call.budget,
            &mut answer,
            tally,
        );
    }
    answer
}

/// As [`ask`], with its scratch lent.
#[inline]
pub fn ask_in(
    call: Call,
    sheet: &mut CheckedSheet,
    store: &mut CheckedStore,
    run: &mut Run,
    tally: &mut Rows,
) -> Fields {
    // SAFETY: the scratch is borrowed for writing.
    unsafe {
        ask_within(
            call,
            &mut *sheet.words,
            &mut *sheet.notes,
            &mut *store.words,
            &mut *run.words,
            tally,
        )
    }
}

/// # Safety
///
/// The scratch may be written.
#[inline]
unsafe fn ask_within(
    call: Call,
    sheet: *mut [u16; SHEET],
    notes: *mut [u8; NOTES],
    store: *mut [u16; STORE],
    run: *mut [u64; RUN],
    tally: &mut Rows,
) -> Fields {
    let mut answer = [0; 6];
    // SAFETY: all is borrowed, for reading or writing as the call has it, and the scratch is the caller's to see to. Nothing else is
    // required, of what the scratch holds neither.
    unsafe {
        sofretu_ask_in(
            call.sheet.as_ptr(),
            call.sheet.len(),
            call.question.as_ptr(),
            call.question.len(),
            call.store.as_mut_ptr(),
            call.store.len(),
            call.kept,
            call.budget,
            sheet,
            notes,
            store,
            run,
            &mut answer,
            tally,
        );
    }
    answer
}

/// The first of stops 1 to 8 that holds of a sheet.
#[inline]
pub fn check_sheet(sheet: &[u8], checked: &mut CheckedSheet) -> Found {
    let mut found = [0; 3];
    // SAFETY: `sheet` is borrowed for reading, the checked sheet and `found` for writing. Nothing else is required.
    let number = unsafe {
        sofretu_check_sheet(
            sheet.as_ptr(),
            sheet.len(),
            &mut *checked.words,
            &mut *checked.notes,
            &mut found,
        )
    };
    let [place, attributes, nodes] = found;
    checked.attributes = attributes;
    checked.nodes = nodes;
    (number, place)
}

/// The first of stops 9 and 10 that holds of a store, for a sheet as [`check_sheet`] left it when it accepted these bytes; the C header says
/// what any other one means.
#[inline]
pub fn check_store(
    sheet: &[u8],
    checked_sheet: &CheckedSheet,
    store: &[u8],
    kept: u64,
    checked: &mut CheckedStore,
) -> Found {
    let mut place = 0;
    // SAFETY: the bytes are borrowed for reading, the checked store and `place` for writing. Nothing else is required.
    let number = unsafe {
        sofretu_check_store(
            sheet.as_ptr(),
            sheet.len(),
            &*checked_sheet.words,
            store.as_ptr(),
            store.len(),
            kept,
            &mut *checked.words,
            &mut place,
        )
    };
    (number, place)
}

/// One question to a checked sheet and a checked store. `tally` is filled whole, whatever it held.
///
/// # Safety
///
/// `sheet` is as [`check_sheet`] left it when it accepted the call's sheet. `store` is as [`check_store`], when it accepted the call's
/// store with this number kept, or the last question to them left it.
#[inline]
pub unsafe fn ask_checked(
    call: Call,
    sheet: &CheckedSheet,
    store: &mut CheckedStore,
    run: &mut Run,
    tally: &mut Rows,
) -> Fields {
    let mut answer = [0; 6];
    // SAFETY: all is borrowed, for reading or writing as the call has it. What is required of the two checked ones is the caller's to
    // see to.
    unsafe {
        sofretu_ask_checked(
            call.sheet.as_ptr(),
            call.sheet.len(),
            &*sheet.words,
            &*sheet.notes,
            call.question.as_ptr(),
            call.question.len(),
            call.store.as_mut_ptr(),
            call.store.len(),
            call.kept,
            call.budget,
            &mut *store.words,
            &mut *run.words,
            &mut answer,
            tally,
        );
    }
    answer
}

/// The first of stops 1 to 13 that holds of a call.
///
/// # Safety
///
/// As [`ask`].
#[inline]
pub unsafe fn check(call: &Call) -> Found {
    let mut place = 0;
    // SAFETY: the bytes are borrowed for reading, `place` for writing. The stack is the caller's to see to.
    let number = unsafe {
        sofretu_check(
            call.sheet.as_ptr(),
            call.sheet.len(),
            call.question.as_ptr(),
            call.question.len(),
            call.store.as_ptr(),
            call.store.len(),
            call.kept,
            call.budget,
            &mut place,
        )
    };
    (number, place)
}

//! The library's calls in lent scratch, with document 01's six fields and the tally as they come, so that nothing but the call is measured:
//! the crate `sofretu` makes memory for its sheets and sessions, and an enum of the fields and the tally.

use calls::Call;
use sofretu_sys::{CheckedSheet, CheckedStore, Fields, Found, Rows, Run};

/// The scratch that is lent to the library.
#[derive(Default)]
pub struct Scratch {
    sheet: CheckedSheet,
    store: CheckedStore,
    run: Run,
}

/// A sheet that the library has accepted, in the scratch.
pub struct Sheet<'a> {
    bytes: &'a [u8],
    scratch: &'a mut Scratch,
}

/// A store that the library has accepted, in the scratch of its sheet.
pub struct Store<'s, 'a> {
    sheet: &'s mut Sheet<'a>,
    bytes: &'s mut [u8],
    kept: u64,
}

impl Scratch {
    /// A question put in this scratch.
    pub fn ask(&mut self, call: Call, tally: &mut Rows) -> Fields {
        let Scratch { sheet, store, run } = self;
        sofretu_sys::ask_in(call, sheet, store, run, tally)
    }

    /// The check of a sheet.
    pub fn check<'a>(&'a mut self, bytes: &'a [u8]) -> Result<Sheet<'a>, Found> {
        match sofretu_sys::check_sheet(bytes, &mut self.sheet) {
            (0, _) => Ok(Sheet {
                bytes,
                scratch: self,
            }),
            stop => Err(stop),
        }
    }
}

impl<'a> Sheet<'a> {
    /// How many attributes and nodes the sheet declares.
    pub fn declared(&self) -> (u64, u64) {
        let CheckedSheet {
            attributes, nodes, ..
        } = self.scratch.sheet;
        (attributes, nodes)
    }

    /// The check of a store.
    pub fn lend<'s>(&'s mut self, bytes: &'s mut [u8], kept: u64) -> Result<Store<'s, 'a>, Found> {
        let Scratch { sheet, store, .. } = &mut *self.scratch;
        match sofretu_sys::check_store(self.bytes, sheet, bytes, kept, store) {
            (0, _) => Ok(Store {
                sheet: self,
                bytes,
                kept,
            }),
            stop => Err(stop),
        }
    }
}

impl Store<'_, '_> {
    /// A question put to the checked sheet and this store.
    pub fn ask(&mut self, question: &[u8], budget: u64, tally: &mut Rows) -> Fields {
        let Scratch { sheet, store, run } = &mut *self.sheet.scratch;
        let call = Call {
            sheet: self.sheet.bytes,
            question,
            store: self.bytes,
            kept: self.kept,
            budget,
        };
        // SAFETY: `Scratch::check` filled the checked sheet for these bytes, `Sheet::lend` or the last call here the checked store; what
        // they speak of has been borrowed since.
        let answer = unsafe { sofretu_sys::ask_checked(call, sheet, store, run, tally) };
        self.kept = answer[5] as u64;
        answer
    }

    /// Where the kept entries lie in the library's index.
    #[cfg(test)]
    pub fn places(&self) -> Vec<sofretu_sys::Place> {
        self.sheet.scratch.store.places(self.kept as usize)
    }
}

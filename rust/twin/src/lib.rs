//! The engine's algorithm in safe Rust, for the benchmarks to measure the engine against: the sheet's check with its index
//! and the widths of its expressions in one pass, the store's check with its index, the question's check, and the frame
//! machine. Like the engine it works in lent memory and on the stack alone, and so needs no allocator.
//!
//! "Document 01" is the paper "Settings sheets evaluated by Saiga", "document 02" its change requests.
#![forbid(unsafe_code)]
#![no_std]

mod answers;
mod bytes;
mod expressions;
mod machine;
mod occurrences;
mod sheets;
mod stores;
mod values;

pub use answers::Answer;
pub use calls::{Call, Refusal, Rows, Stop};
pub use machine::{Form, Frame, Stack};
pub use sheets::{Index, Sheet};
pub use stores::{Links, Store};
pub use values::{Base, Function, Holding, Value};

/// The greatest budget permitted.
pub const MOST_STEPS: u64 = 1_000_000;

/// All the memory that a call works in. Nothing is asked of what it holds.
pub struct Scratch {
    pub index: Index,
    pub links: Links,
    pub stack: Stack,
}

impl Default for Scratch {
    fn default() -> Scratch {
        Scratch {
            index: Index::EMPTY,
            links: [0; stores::LINKS_SIZE],
            stack: Stack::default(),
        }
    }
}

/// A question put to a sheet and a lent store: the answer and, in the call's store, the bytes lent back. The tally is filled whole, whatever
/// it held. It takes some 221 KB of stack.
pub fn ask(call: Call, tally: &mut Rows) -> Answer {
    ask_in(call, &mut Scratch::default(), tally)
}

/// As `ask`, in lent scratch.
pub fn ask_in(call: Call, scratch: &mut Scratch, tally: &mut Rows) -> Answer {
    let opened = Sheet::check(call.sheet, &mut scratch.index).and_then(|sheet| {
        let store = Store::check(&sheet, call.store, call.kept, &mut scratch.links)?;
        Ok((sheet, store))
    });
    match opened {
        Ok((sheet, mut store)) => {
            let stack = &mut scratch.stack;
            ask_checked(&sheet, &mut store, call.question, call.budget, stack, tally)
        }
        Err(refusal) => {
            tally.fill(0);
            Answer::refusal(refusal, call.kept)
        }
    }
}

/// A question put to a checked sheet and a checked store, which stays checked. The tally is filled whole, whatever it held.
pub fn ask_checked(
    sheet: &Sheet,
    store: &mut Store,
    question: &[u8],
    budget: u64,
    stack: &mut Stack,
    tally: &mut Rows,
) -> Answer {
    tally.fill(0);
    match check_question(sheet, question, budget, &mut stack.widths) {
        Ok(()) => machine::run(sheet, store, question, budget, stack, tally),
        Err(refusal) => Answer::refusal(refusal, store.kept as u64),
    }
}

/// The first of stops 1 to 13 that a call's arguments bring.
pub fn check(call: Call, index: &mut Index, links: &mut Links) -> Result<(), Refusal> {
    let sheet = Sheet::check(call.sheet, index)?;
    Store::check(&sheet, call.store, call.kept, links)?;
    let widths = &mut [0; expressions::LONGEST];
    check_question(&sheet, call.question, call.budget, widths)
}

/// Stops 11 to 13, with the widths of the question's expressions noted.
fn check_question(
    sheet: &Sheet,
    question: &[u8],
    budget: u64,
    widths: &mut [u8],
) -> Result<(), Refusal> {
    if budget > MOST_STEPS {
        return Err(Stop::Budget.into());
    }
    let typ = sheet
        .question_scope()
        .read_whole(question, widths)
        .ok_or(Stop::QuestionForm)?;
    if !typ.is_base() {
        return Err(Stop::QuestionType.into());
    }
    Ok(())
}

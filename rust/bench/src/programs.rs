//! The three programs that are measured, and the kinds of work that each can be given.

use std::hint::black_box;
use std::time::{Duration, Instant};

use calls::{Call, Rows, TALLY_ROWS};
use sofretu_sys::{Fields, Found};

use crate::library;

/// The budget of every question.
const BUDGET: u64 = 1_000_000;

/// What a program works on: a sheet, a question, and a store with a number kept.
#[derive(Clone, Default)]
pub struct Input {
    pub sheet: Vec<u8>,
    /// The questions put to the store before the one that is measured.
    pub before: Vec<Vec<u8>>,
    pub question: Vec<u8>,
    pub store: Vec<u8>,
    pub kept: u64,
}

impl Input {
    /// The whole call, with the store that it is lent.
    fn call<'a>(&'a self, store: &'a mut [u8]) -> Call<'a> {
        Call {
            sheet: &self.sheet,
            question: &self.question,
            store,
            kept: self.kept,
            budget: BUDGET,
        }
    }
}

/// What one run is. Whatever is not named is done once, before the time is taken.
#[derive(Clone, Copy, PartialEq, Eq)]
pub enum Work {
    /// The store's check and the question.
    Question,
    /// The question alone, to one store, after the questions before it.
    Kept,
    /// The whole call, in the program's own scratch.
    Ask,
    /// The whole call, in scratch that the library clears. The other programs have no such call, and make the one before.
    AskCleared,
    /// The whole call, in lent scratch. The second evaluator has no such call, and makes the other.
    AskIn,
    CheckSheet,
    CheckStore,
}

/// What a run brings: the answer's six fields and its tally, or a check's number, place and counts, and no steps.
#[derive(Clone, Copy, Debug, PartialEq, Eq)]
pub struct Brought {
    pub fields: Fields,
    pub tally: Rows,
}

/// What the last run of some brought, and the store.
#[derive(Clone, Debug, PartialEq, Eq)]
pub struct Outcome {
    pub brought: Brought,
    pub store: Vec<u8>,
}

pub trait Program {
    /// Does some work a number of times.
    fn run(&mut self, work: Work, input: &Input, runs: u32) -> (Duration, Outcome);
}

/// The time of a number of runs, each lent one and the same tally, and what the last of them brought.
fn timed(runs: u32, mut run: impl FnMut(&mut Rows) -> Fields) -> (Duration, Brought) {
    let mut tally = [0; TALLY_ROWS];
    let start = Instant::now();
    for _ in 1..runs {
        black_box(run(black_box(&mut tally)));
    }
    let fields = black_box(run(black_box(&mut tally)));
    (start.elapsed(), Brought { fields, tally })
}

fn stopped(number: i64, place: i64) -> Fields {
    [number, place, 0, 0, 0, 0]
}

fn accepted(attributes: i64, nodes: i64) -> Fields {
    [0, 0, attributes, nodes, 0, 0]
}

const CHECKED: &str = "the sheet and the store of this work are accepted";

/// The engine: the static library.
#[derive(Default)]
pub struct Engine {
    scratch: Box<library::Scratch>,
}

impl Program for Engine {
    fn run(&mut self, work: Work, input: &Input, runs: u32) -> (Duration, Outcome) {
        let scratch = &mut *self.scratch;
        let (sheet, question) = (&input.sheet[..], &input.question[..]);
        let mut store = input.store.clone();
        let lent = &mut store[..];
        let refused = |(number, place): Found| stopped(number.into(), place as i64);
        let (time, brought) = match work {
            Work::Question => {
                let mut sheet = scratch.check(sheet).expect(CHECKED);
                timed(runs, |tally| {
                    let mut store = sheet.lend(lent, input.kept).expect(CHECKED);
                    store.ask(question, BUDGET, tally)
                })
            }
            Work::Kept => {
                let mut sheet = scratch.check(sheet).expect(CHECKED);
                let mut store = sheet.lend(lent, input.kept).expect(CHECKED);
                for question in &input.before {
                    store.ask(question, BUDGET, &mut [0; TALLY_ROWS]);
                }
                timed(runs, |tally| store.ask(question, BUDGET, tally))
            }
            // SAFETY: the programs run on the main thread, whose stack has more than the call needs.
            Work::Ask => timed(runs, |tally| unsafe {
                sofretu_sys::ask(input.call(lent), tally)
            }),
            // SAFETY: as above.
            Work::AskCleared => timed(runs, |tally| unsafe {
                sofretu_sys::ask_cleared(input.call(lent), tally)
            }),
            Work::AskIn => timed(runs, |tally| scratch.ask(input.call(lent), tally)),
            Work::CheckSheet => timed(runs, |_| match scratch.check(sheet) {
                Ok(sheet) => {
                    let (attributes, nodes) = sheet.declared();
                    accepted(attributes as i64, nodes as i64)
                }
                Err(stop) => refused(stop),
            }),
            Work::CheckStore => {
                let mut sheet = scratch.check(sheet).expect(CHECKED);
                timed(runs, |_| match sheet.lend(lent, input.kept) {
                    Ok(_) => stopped(0, 0),
                    Err(stop) => refused(stop),
                })
            }
        };
        (time, Outcome { brought, store })
    }
}

/// The same algorithm in Rust.
#[derive(Default)]
pub struct Twin {
    scratch: Box<twin::Scratch>,
}

impl Program for Twin {
    fn run(&mut self, work: Work, input: &Input, runs: u32) -> (Duration, Outcome) {
        use twin::{Sheet, Store};
        let scratch = &mut *self.scratch;
        let (sheet, question) = (&input.sheet[..], &input.question[..]);
        let mut store = input.store.clone();
        let lent = &mut store[..];
        let refused = |refusal: twin::Refusal| stopped(refusal.stop as i64, refusal.place as i64);
        let stack = &mut scratch.stack;
        let mut put = |sheet: &Sheet, store: &mut Store, question: &[u8], tally: &mut Rows| {
            twin::ask_checked(sheet, store, black_box(question), BUDGET, stack, tally).fields()
        };
        let (time, brought) = match work {
            Work::Question => {
                let sheet = Sheet::check(sheet, &mut scratch.index).expect(CHECKED);
                timed(runs, |tally| {
                    let store =
                        Store::check(&sheet, black_box(lent), input.kept, &mut scratch.links);
                    put(&sheet, &mut store.expect(CHECKED), question, tally)
                })
            }
            Work::Kept => {
                let sheet = Sheet::check(sheet, &mut scratch.index).expect(CHECKED);
                let store = Store::check(&sheet, lent, input.kept, &mut scratch.links);
                let mut store = store.expect(CHECKED);
                for question in &input.before {
                    put(&sheet, &mut store, question, &mut [0; TALLY_ROWS]);
                }
                timed(runs, |tally| put(&sheet, &mut store, question, tally))
            }
            Work::Ask | Work::AskCleared => timed(runs, |tally| {
                twin::ask(black_box(input.call(lent)), tally).fields()
            }),
            Work::AskIn => timed(runs, |tally| {
                twin::ask_in(black_box(input.call(lent)), scratch, tally).fields()
            }),
            Work::CheckSheet => timed(runs, |_| {
                match Sheet::check(black_box(sheet), &mut scratch.index) {
                    Ok(sheet) => accepted(sheet.attributes as i64, sheet.nodes as i64),
                    Err(stop) => refused(stop),
                }
            }),
            Work::CheckStore => {
                let sheet = Sheet::check(sheet, &mut scratch.index).expect(CHECKED);
                timed(runs, |_| {
                    match Store::check(&sheet, black_box(lent), input.kept, &mut scratch.links) {
                        Ok(_) => stopped(0, 0),
                        Err(stop) => refused(stop),
                    }
                })
            }
        };
        (time, Outcome { brought, store })
    }
}

/// The second evaluator.
pub struct Oracle;

impl Program for Oracle {
    fn run(&mut self, work: Work, input: &Input, runs: u32) -> (Duration, Outcome) {
        use oracle::ask::{ask, ask_admitted, read_question};
        use oracle::sheet::Sheet;
        use oracle::stop::Stop;
        use oracle::store::Store;
        let (sheet, question) = (&input.sheet[..], &input.question[..]);
        let mut store = input.store.clone();
        let lent = &mut store[..];
        let refused = |stop: Stop| stopped(stop.reason as i64, stop.place as i64);
        let put = |sheet: &Sheet, store: &mut Store, question: &[u8], tally: &mut Rows| {
            let question = read_question(black_box(question), sheet).expect(CHECKED);
            let answer = ask_admitted(sheet, store, &question, BUDGET);
            *tally = answer.tally;
            answer.fields()
        };
        let (time, brought) = match work {
            Work::Question => {
                let sheet = Sheet::read(sheet).expect(CHECKED);
                timed(runs, |tally| {
                    let mut store = Store::open(lent, input.kept, &sheet).expect(CHECKED);
                    put(&sheet, &mut store, question, tally)
                })
            }
            Work::Kept => {
                let sheet = Sheet::read(sheet).expect(CHECKED);
                let mut store = Store::open(lent, input.kept, &sheet).expect(CHECKED);
                for question in &input.before {
                    put(&sheet, &mut store, question, &mut [0; TALLY_ROWS]);
                }
                timed(runs, |tally| put(&sheet, &mut store, question, tally))
            }
            Work::Ask | Work::AskCleared | Work::AskIn => timed(runs, |tally| {
                let answer = ask(black_box(sheet), lent, input.kept, question, BUDGET);
                *tally = answer.tally;
                answer.fields()
            }),
            Work::CheckSheet => timed(runs, |_| match Sheet::read(black_box(sheet)) {
                Ok(sheet) => accepted(sheet.attributes().len() as i64, sheet.node_count() as i64),
                Err(stop) => refused(stop),
            }),
            Work::CheckStore => {
                let sheet = Sheet::read(sheet).expect(CHECKED);
                timed(runs, |_| {
                    match Store::open(black_box(lent), input.kept, &sheet) {
                        Ok(_) => stopped(0, 0),
                        Err(stop) => refused(stop),
                    }
                })
            }
        };
        (time, Outcome { brought, store })
    }
}

/// Where the engine has an input's kept entries when its question is put.
#[cfg(test)]
pub fn places(input: &Input) -> Vec<sofretu_sys::Place> {
    let mut scratch = Box::<library::Scratch>::default();
    let mut sheet = scratch.check(&input.sheet).expect(CHECKED);
    let mut bytes = input.store.clone();
    let mut store = sheet.lend(&mut bytes, input.kept).expect(CHECKED);
    for question in &input.before {
        store.ask(question, BUDGET, &mut [0; TALLY_ROWS]);
    }
    store.places()
}

/// Steps and kept of an input's question, which is answered with a value.
#[cfg(test)]
pub fn counts(input: &Input) -> (i64, i64) {
    let (_, outcome) = Oracle.run(Work::Kept, input, 1);
    let [number, _, _, _, steps, kept] = outcome.brought.fields;
    assert_eq!(number, 0);
    (steps, kept)
}

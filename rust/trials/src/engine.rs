//! What can be asked: the oracle itself, or an engine under comparison.

use calls::Call;
use oracle::ask::{ask_accepted, refusal, Answer};
use oracle::sheet::Sheet;
use oracle::stop::Stop;

use crate::case::{Case, Listed};

/// Something that answers as document 01 says, or should.
pub trait Engine {
    /// The answer to one call, whose store is left as the answer's run leaves it.
    fn ask(&mut self, call: Call) -> Answer;

    /// Puts a list's questions one after the other, each lent what the one before left. `each` is shown every answer and the
    /// bytes of the store after it.
    fn list(&mut self, case: &Case, each: &mut dyn FnMut(Answer, &[u8])) {
        ask_each(self, case, each);
    }
}

impl<F: FnMut(Call) -> Answer> Engine for F {
    fn ask(&mut self, call: Call) -> Answer {
        self(call)
    }
}

/// A store as it is lent to a question, or left by one.
#[derive(Clone, Debug, PartialEq, Eq)]
pub struct Lent {
    pub bytes: Vec<u8>,
    pub kept: u64,
}

impl Lent {
    /// What the first question of a case is lent.
    pub fn first(case: &Case) -> Lent {
        Lent {
            bytes: case.store.clone(),
            kept: case.kept,
        }
    }

    /// The call that lends this store.
    pub fn call<'a>(&'a mut self, sheet: &'a [u8], question: &'a [u8], budget: u64) -> Call<'a> {
        Call {
            sheet,
            question,
            store: &mut self.bytes,
            kept: self.kept,
            budget,
        }
    }

    /// Puts a question to an engine. The store is left as the next question is lent it.
    pub fn ask<E: Engine + ?Sized>(
        &mut self,
        engine: &mut E,
        sheet: &[u8],
        question: &[u8],
        budget: u64,
    ) -> Answer {
        let answer = engine.ask(self.call(sheet, question, budget));
        self.kept = answer.kept as u64;
        answer
    }
}

/// A list put to an engine by one call after the other.
pub fn ask_each<E: Engine + ?Sized>(
    engine: &mut E,
    case: &Case,
    each: &mut dyn FnMut(Answer, &[u8]),
) {
    let mut lent = Lent::first(case);
    for ask in &case.asks {
        let answer = lent.ask(engine, &case.sheet, &ask.question, ask.budget);
        each(answer, &lent.bytes);
    }
}

impl Case {
    /// The case with an engine's answers.
    pub fn answered<E: Engine + ?Sized>(self, engine: &mut E) -> Listed {
        let mut left = Lent::first(&self);
        let mut answers = Vec::new();
        engine.list(&self, &mut |answer, store| {
            left.bytes.copy_from_slice(store);
            left.kept = answer.kept as u64;
            answers.push(answer);
        });
        Listed {
            case: self,
            answers,
            kept: left.kept,
            store: left.bytes,
        }
    }
}

/// The oracle as an engine. It answers as `ask` does and reads a sheet once for all the questions that follow on it.
#[derive(Default)]
pub struct Oracle {
    last: Option<(Vec<u8>, Result<Sheet, Stop>)>,
}

impl Engine for Oracle {
    fn ask(&mut self, call: Call) -> Answer {
        let read = match self.last.take() {
            Some((bytes, read)) if bytes == call.sheet => self.last.insert((bytes, read)),
            _ => self
                .last
                .insert((call.sheet.to_vec(), Sheet::read(call.sheet))),
        };
        match &read.1 {
            Ok(sheet) => ask_accepted(sheet, call.store, call.kept, call.question, call.budget),
            Err(stop) => refusal(*stop, call.kept),
        }
    }
}

//! Document 01, "Stops by origin": a question put to a sheet and a lent store, with all its answer; document 02, F-2.

use std::fmt;

use crate::caching::{self, Outcome};
use crate::expr::{Expr, LONGEST};
use crate::sheet::Sheet;
use crate::stop::{Reason, Stop};
use crate::store::Store;
use crate::tally::{Tally, ZEROS};
use crate::values::Type;

/// "The budget is 0 to 1,000,000 counted steps" ("The steps").
pub const MOST_STEPS: u64 = 1_000_000;

/// "An answer has number (0 for a value), place, type, value, steps, kept", and "a tally with each answer" (document 02, F-2).
#[derive(Clone, Copy, Debug, PartialEq, Eq)]
pub struct Answer {
    pub number: i64,
    pub place: i64,
    pub typ: i64,
    pub value: i64,
    pub steps: i64,
    pub kept: i64,
    pub tally: Tally,
}

impl Answer {
    /// The answer with six fields, in their order, and a tally.
    pub fn new([number, place, typ, value, steps, kept]: [i64; 6], tally: Tally) -> Answer {
        Answer {
            number,
            place,
            typ,
            value,
            steps,
            kept,
            tally,
        }
    }

    /// The six fields in their order.
    pub fn fields(&self) -> [i64; 6] {
        [
            self.number,
            self.place,
            self.typ,
            self.value,
            self.steps,
            self.kept,
        ]
    }
}

/// The six fields, as the report program prints them.
impl fmt::Display for Answer {
    fn fmt(&self, f: &mut fmt::Formatter) -> fmt::Result {
        let [number, place, typ, value, steps, kept] = self.fields();
        write!(f, "{number} {place} {typ} {value} {steps} {kept}")
    }
}

/// The answer and, in `store`, the bytes lent back, for any inputs.
///
/// A number kept above the greatest `i64` stands in the answer in two's complement.
pub fn ask(sheet: &[u8], store: &mut [u8], kept: u64, question: &[u8], budget: u64) -> Answer {
    match Sheet::read(sheet) {
        Ok(sheet) => ask_accepted(&sheet, store, kept, question, budget),
        Err(stop) => refusal(stop, kept),
    }
}

/// As `ask`, for a sheet that none of stops 1 to 8 holds of.
pub fn ask_accepted(
    sheet: &Sheet,
    store: &mut [u8],
    kept: u64,
    question: &[u8],
    budget: u64,
) -> Answer {
    match admit(sheet, store, kept, question, budget) {
        Ok((mut store, question)) => ask_admitted(sheet, &mut store, &question, budget),
        Err(stop) => refusal(stop, kept),
    }
}

/// As `ask`, for a sheet, a store, a question and a budget that none of stops 1 to 13 holds of.
pub fn ask_admitted(sheet: &Sheet, store: &mut Store, question: &Expr, budget: u64) -> Answer {
    let Outcome {
        ending,
        steps,
        tally,
    } = caching::evaluate(sheet, store, question, budget);
    let (number, typ, value) = match ending {
        Ok(value) => {
            let base = value.base().expect("a question is of base type");
            (0, i64::from(base.code()), value.number())
        }
        Err(reason) => (reason as i64, 0, 0),
    };
    Answer {
        number,
        place: 0,
        typ,
        value,
        steps: steps as i64,
        kept: store.kept() as i64,
        tally,
    }
}

/// Stops 9 to 13, in the order of their numbers.
fn admit<'s>(
    sheet: &Sheet,
    store: &'s mut [u8],
    kept: u64,
    question: &[u8],
    budget: u64,
) -> Result<(Store<'s>, Expr), Stop> {
    let store = Store::open(store, kept, sheet)?;
    if budget > MOST_STEPS {
        return Err(Stop::of(Reason::Budget));
    }
    Ok((store, read_question(question, sheet)?))
}

/// The question that `bytes` write: stops 12 and 13.
pub fn read_question(bytes: &[u8], sheet: &Sheet) -> Result<Expr, Stop> {
    if bytes.len() > LONGEST {
        return Err(Stop::of(Reason::QuestionForm));
    }
    let expr = Expr::read(bytes, sheet.scope()).ok_or(Stop::of(Reason::QuestionForm))?;
    match expr.type_of(sheet.scope()) {
        Some(Type::Base(_)) => Ok(expr),
        _ => Err(Stop::of(Reason::QuestionType)),
    }
}

/// "Under 1 to 13 steps are 0 and kept and store are as lent", "under any stop type and value are 0", and "1 to 13 bring zeros" for a tally.
pub fn refusal(stop: Stop, kept: u64) -> Answer {
    Answer {
        number: stop.reason as i64,
        place: stop.place as i64,
        typ: 0,
        value: 0,
        steps: 0,
        kept: kept as i64,
        tally: ZEROS,
    }
}

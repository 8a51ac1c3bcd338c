//! Sheets and questions that several tests use.

use crate::ask;
use oracle::ask::read_question;
use oracle::plain::{self, Ending, Watched};
use oracle::sheet::Sheet;
use trials::compare::Counts;
pub use trials::write::*;
use trials::{demand3, Answer, Ask, Call, Case};

/// The greatest budget.
pub const MOST: u64 = 1_000_000;

/// L6: equal(D)(D).
pub fn l6() -> Vec<u8> {
    binary(EQUAL, &d(), &d())
}

/// L10: own of (node 0's up).
pub fn l10() -> Vec<u8> {
    of(&of(&node_literal(0), UP, &UNIT), OWN, &UNIT)
}

/// L13: add(2,147,483,647)(1).
pub fn l13() -> Vec<u8> {
    binary(ADD, &int(i32::MAX), &int(1))
}

/// One node and one Int attribute, defined as itself.
pub fn sheet_l12() -> Vec<u8> {
    [
        attribute(2, 0),
        node(0),
        rule(0, 0, &of(&THIS, 0, &UNIT)),
        end(),
    ]
    .concat()
}

/// One node and an Int attribute with a Bool parameter: of true it is that of false, and of false it is 5.
pub fn of_the_other_bool() -> Vec<u8> {
    let other = of(&THIS, 0, &apply(&function(NOT), &PARAMETER));
    [
        attribute(INT_TYPE, BOOL_TYPE),
        node(0),
        rule(0, 0, &if_else(&PARAMETER, &other, &int(5))),
        end(),
    ]
    .concat()
}

/// A store of a capacity with nothing kept, and what is asked of it in turn.
pub struct Lent {
    pub store: Vec<u8>,
    pub kept: u64,
}

impl Lent {
    pub fn new(capacity: usize) -> Lent {
        Lent {
            store: vec![0xEE; capacity * 12],
            kept: 0,
        }
    }

    pub fn ask(&mut self, sheet: &[u8], question: &[u8], budget: u64) -> Answer {
        let answer = ask(sheet, &mut self.store, self.kept, question, budget);
        self.kept = answer.kept as u64;
        answer
    }
}

/// What plain Saiga comes to, within a limit of steps.
pub fn plain_watched(sheet: &[u8], question: &[u8], limit: u64) -> Watched {
    let sheet = Sheet::read(sheet).expect("an accepted sheet");
    let question = read_question(question, &sheet).expect("an accepted question");
    plain::watch(&sheet, &question, limit)
}

/// How plain Saiga ends, within a limit of steps.
pub fn plain_ending(sheet: &[u8], question: &[u8], limit: u64) -> Ending {
    plain_watched(sheet, question, limit).ending
}

/// Number and place of the stop that a sheet brings; store and kept stay as lent, and no row has steps.
pub fn refused(sheet: &[u8]) -> (i64, i64) {
    let mut store = [0xEE; 25];
    let given = ask(sheet, &mut store, 9, &[0xFF], u64::MAX);
    assert_eq!(store, [0xEE; 25]);
    let Answer { number, place, .. } = given;
    assert_eq!(given, Answer::new([number, place, 0, 0, 0, 9], [0; 34]));
    (number, place)
}

/// The answer with a new store of 1,024.
pub fn fresh(sheet: &[u8], question: &[u8], budget: u64) -> Answer {
    Lent::new(1_024).ask(sheet, question, budget)
}

/// The answer to a call as it stands.
pub fn answer_to(call: &mut Call) -> Answer {
    ask(
        call.sheet,
        call.store,
        call.kept,
        call.question,
        call.budget,
    )
}

/// A list with stores of several capacities, each with nothing kept.
pub fn in_stores(sheet: &[u8], asks: &[(Vec<u8>, u64)]) -> Vec<(usize, Case)> {
    let ask = |(question, budget): &(Vec<u8>, u64)| Ask {
        question: question.clone(),
        budget: *budget,
    };
    let in_store = |capacity| {
        let case = Case {
            sheet: sheet.to_vec(),
            store: vec![0xEE; 12 * capacity],
            kept: 0,
            asks: asks.iter().map(ask).collect(),
        };
        (capacity, case)
    };
    [0, 1, 2, 5, 1_024].map(in_store).into()
}

/// Tries demand 3 and the claims on circles on a list with stores of several capacities. Each comes with what was tried.
pub fn tried_by_demand_3(sheet: &[u8], asks: &[(Vec<u8>, u64)]) -> Vec<(usize, Counts)> {
    let mut engine = |mut call: Call| answer_to(&mut call);
    let tried = |(capacity, case): (usize, Case)| match demand3(&mut engine, &case) {
        Ok(counts) => (capacity, counts),
        Err(violation) => panic!("capacity {capacity}: {violation}"),
    };
    in_stores(sheet, asks).into_iter().map(tried).collect()
}

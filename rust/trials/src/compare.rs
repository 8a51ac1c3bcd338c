//! An engine compared with the oracle: every field and every row of every answer, every byte of the store after it.

use std::array;
use std::collections::{BTreeMap, BTreeSet};
use std::fmt;

use calls::{Call, Stop, Tally};
use oracle::ask::Answer;
use oracle::store::{ENTRY, MOST_ENTRIES};

use crate::case::Case;
use crate::engine::{Engine, Lent, Oracle};

/// What was tried.
#[derive(Clone, Debug, Default, PartialEq, Eq)]
pub struct Counts {
    /// Answers to the lists' own questions, by number.
    pub answers: BTreeMap<i64, u64>,
    /// Checks, by what was checked.
    pub checks: BTreeMap<&'static str, u64>,
    /// The capacities of first stores that passed their checks.
    pub capacities: BTreeSet<usize>,
    /// The steps of those answers, row by row.
    pub steps: Tally,
}

impl Counts {
    pub fn answer(&mut self, answer: &Answer) {
        *self.answers.entry(answer.number).or_default() += 1;
        self.tally(&answer.tally.into());
    }

    fn tally(&mut self, more: &Tally) {
        let (rows, more) = (self.steps.rows(), more.rows());
        self.steps = array::from_fn(|row| rows[row].saturating_add(more[row])).into();
    }

    pub fn check(&mut self, part: &'static str) {
        *self.checks.entry(part).or_default() += 1;
    }

    pub fn add(&mut self, other: &Counts) {
        for (number, count) in &other.answers {
            *self.answers.entry(*number).or_default() += count;
        }
        for (part, count) in &other.checks {
            *self.checks.entry(part).or_default() += count;
        }
        self.capacities.extend(&other.capacities);
        self.tally(&other.steps);
    }

    /// The numbers, 0 and those of the stops, that no answer had.
    pub fn unmet(&self) -> Vec<i64> {
        let stops = Stop::ALL.iter().map(|stop| i64::from(stop.number()));
        [0].into_iter()
            .chain(stops)
            .filter(|number| !self.answers.contains_key(number))
            .collect()
    }

    /// The rows of the tally that no step was in.
    pub fn unmet_rows(&self) -> Vec<usize> {
        let rows = self.steps.rows();
        (0..rows.len()).filter(|row| rows[*row] == 0).collect()
    }
}

impl fmt::Display for Counts {
    fn fmt(&self, f: &mut fmt::Formatter) -> fmt::Result {
        for (number, count) in &self.answers {
            writeln!(f, "number {number}: {count}")?;
        }
        for (part, count) in &self.checks {
            writeln!(f, "{part}: {count}")?;
        }
        if !self.capacities.is_empty() {
            let capacities = self.capacities.len();
            writeln!(f, "capacities: {capacities} of {}", MOST_ENTRIES + 1)?;
        }
        writeln!(f, "{}", self.steps)
    }
}

/// Whether the rows of an answer's tally add up to its steps.
pub fn adds_up(answer: &Answer) -> bool {
    u64::try_from(answer.steps) == Ok(Tally::from(answer.tally).total())
}

/// The six fields of an answer, and its tally in words.
pub fn shown(answer: &Answer) -> String {
    format!("{answer} ({})", Tally::from(answer.tally))
}

/// Where an engine differs from the oracle, or where the rows of both do not add up to their steps.
#[derive(Clone, Debug, PartialEq, Eq)]
pub struct Mismatch {
    /// The question's number in the list, from 0.
    pub question: usize,
    pub expected: Answer,
    pub answer: Answer,
    /// The first byte of the store left that differs: its offset, the oracle's byte, the engine's.
    pub byte: Option<(usize, u8, u8)>,
}

impl fmt::Display for Mismatch {
    fn fmt(&self, f: &mut fmt::Formatter) -> fmt::Result {
        write!(
            f,
            "question {}: oracle {}, engine {}",
            self.question,
            shown(&self.expected),
            shown(&self.answer)
        )?;
        if let Some((at, expected, got)) = self.byte {
            write!(
                f,
                "; store byte {at}: oracle {expected:02x}, engine {got:02x}"
            )?;
        }
        Ok(())
    }
}

/// Puts a list to an engine and to the oracle.
pub fn compare<E: Engine + ?Sized>(engine: &mut E, case: &Case) -> Result<Counts, Box<Mismatch>> {
    let mut oracle = Oracle::default();
    let mut counts = Counts::default();
    let mut lent = Lent::first(case);
    let mut asks = case.asks.iter().enumerate();
    let mut mismatch = None;
    engine.list(case, &mut |answer, store| {
        if mismatch.is_some() {
            return;
        }
        let (question, ask) = asks.next().expect("an answer to each question");
        let expected = lent.ask(&mut oracle, &case.sheet, &ask.question, ask.budget);
        let byte = (0..store.len())
            .find(|at| store[*at] != lent.bytes[*at])
            .map(|at| (at, lent.bytes[at], store[at]));
        if answer != expected || byte.is_some() || !adds_up(&answer) {
            mismatch = Some(Box::new(Mismatch {
                question,
                expected,
                answer,
                byte,
            }));
            return;
        }
        counts.answer(&answer);
        if !(1..=10).contains(&answer.number) {
            counts.capacities.insert(store.len() / ENTRY);
        }
    });
    match mismatch {
        Some(mismatch) => Err(mismatch),
        None => {
            assert_eq!(asks.len(), 0, "an answer to each question");
            Ok(counts)
        }
    }
}

/// Puts a list to a call that checks and does not run. It must find the stops from 1 to 13 that the oracle answers with, each with its
/// number and place, and no other; and it must leave the store as it was lent.
pub fn compare_check(
    mut check: impl FnMut(Call) -> Result<(), (i64, i64)>,
    case: &Case,
) -> Result<(), String> {
    let mut oracle = Oracle::default();
    let mut lent = Lent::first(case);
    for (number, ask) in case.asks.iter().enumerate() {
        let mut left = lent.clone();
        let checked = check(left.call(&case.sheet, &ask.question, ask.budget));
        if left != lent {
            return Err(format!("question {number}: the check writes the store"));
        }
        let answer = lent.ask(&mut oracle, &case.sheet, &ask.question, ask.budget);
        let expected = match answer.number {
            1..=13 => Err((answer.number, answer.place)),
            _ => Ok(()),
        };
        if checked != expected {
            return Err(format!(
                "question {number}: the check says {checked:?}, the oracle's answer is {answer}"
            ));
        }
    }
    Ok(())
}

//! Demand 3's four parts (document 01, "Contracts"; document 02, F-4) and the claims on circles (document 02, F-9), tried on an engine's answers
//! against plain Saiga.
//!
//! - (a) If plain Saiga ends with a value, on null or by overflow in n steps, every permitted budget from n on, put at that place of
//!   the list, brings that ending in at most n steps, or stop 16.
//! - (b) Whatever the budget, such an ending is reported only if plain Saiga comes to the same in no fewer steps.
//! - (c) Where the list brings such an ending, any larger store brings the same one there in no more steps.
//! - (d) From any one store, every larger permitted budget gives the same answer, its tally included, and leaves the same store,
//!   unless the smaller budget's answer was 15.
//!
//! The claims on circles:
//!
//! - (1) A question gets stop 20 only if plain Saiga runs for ever on it.
//! - (2) One on which plain Saiga runs for ever gets 20, 15 or 16 under every permitted budget.
//! - (3) Of plain Saiga itself: it runs for ever exactly if some occurrence comes due inside its own evaluation. So no question that ends has such an
//!   occurrence, and (1) and (2) are tried by it.
//!
//! (a) to (c) and the claims are for accepted sheets and lists that start with nothing kept. Where plain Saiga still runs after the
//! limit, (a) is not tried, and (b) cannot be settled: a kept value can spare any number of steps. Without a circle by then, nor can (1) and (3).
//!
//! Beside them, with a store of capacity 0 every step is a plain one: an ending is then plain Saiga's, count and all, and stop 20 comes where
//! plain Saiga first has an occurrence due inside its own evaluation. And the rows of every answer add up to its steps (document 02, F-2).

use std::fmt;
use std::mem;

use calls::Stop;
use oracle::ask::{read_question, Answer, MOST_STEPS};
use oracle::plain::{self, Circle, Ending, Watched};
use oracle::sheet::Sheet;
use oracle::store::{well_shaped, ENTRY, MOST_ENTRIES};

use crate::case::{Ask, Case};
use crate::compare::{adds_up, shown, Counts};
use crate::engine::{Engine, Lent};

/// How many steps plain Saiga is given.
pub const PLAIN_LIMIT: u64 = 20_000;

const NULL: i64 = Stop::Null as i64;
const SPENT: i64 = Stop::Spent as i64;
const DEPTH: i64 = Stop::Depth as i64;
const OVERFLOW: i64 = Stop::Overflow as i64;
const CIRCLE: i64 = Stop::Circle as i64;

/// What is checked, as it is named in counts and violations.
const A: &str = "demand 3 (a)";
const B: &str = "demand 3 (b)";
const B_UNSETTLED: &str = "demand 3 (b), not settled";
const C: &str = "demand 3 (c)";
const D: &str = "demand 3 (d)";
const CIRCLES_1: &str = "circles (1)";
const CIRCLES_1_UNSETTLED: &str = "circles (1), not settled";
const CIRCLES_2: &str = "circles (2)";
const CIRCLES_3: &str = "circles (3)";
const CIRCLES_3_UNSETTLED: &str = "circles (3), not settled";
const CAPACITY_0: &str = "capacity 0";
const TALLY: &str = "tally";

/// A part of demand 3 that an engine breaks, a claim on circles, or the check of capacity 0 or of tallies.
#[derive(Clone, Debug, PartialEq, Eq)]
pub struct Violation {
    pub part: &'static str,
    /// The question's number in the list, from 0.
    pub question: usize,
    pub detail: String,
}

impl fmt::Display for Violation {
    fn fmt(&self, f: &mut fmt::Formatter) -> fmt::Result {
        write!(
            f,
            "{}, question {}: {}",
            self.part, self.question, self.detail
        )
    }
}

/// Tries all four parts and the claims on circles on a list.
pub fn demand3<E: Engine + ?Sized>(engine: &mut E, case: &Case) -> Result<Counts, Violation> {
    let sheet = Sheet::read(&case.sheet).ok();
    let claimed = sheet.filter(|_| case.kept == 0 && well_shaped(&case.store));
    let mut counts = Counts::default();
    let mut answers = Vec::new();
    let mut lefts = Vec::new();
    engine.list(case, &mut |answer, store| {
        counts.answer(&answer);
        answers.push(answer);
        lefts.push(Lent {
            bytes: store.to_vec(),
            kept: answer.kept as u64,
        });
    });
    let mut before = Lent::first(case);
    let mut watched = Vec::new();
    for (question, (ask, left)) in case.asks.iter().zip(lefts).enumerate() {
        let plain = claimed.as_ref().and_then(|sheet| {
            let question = read_question(&ask.question, sheet).ok()?;
            Some(plain::watch(sheet, &question, PLAIN_LIMIT))
        });
        watched.push(plain);
        let own = Tried {
            budget: ask.budget,
            answer: answers[question],
            left: left.clone(),
        };
        let place = Place {
            sheet: &case.sheet,
            ask,
            before: mem::replace(&mut before, left),
            plain,
        };
        place
            .try_budgets(engine, own, &mut counts)
            .map_err(|(part, detail)| Violation {
                part,
                question,
                detail,
            })?;
    }
    if claimed.is_some() {
        let expected: Vec<_> = watched.into_iter().zip(answers).collect();
        try_larger_stores(engine, case, &expected, &mut counts)?;
    }
    Ok(counts)
}

/// A question at its place of the list.
struct Place<'a> {
    sheet: &'a [u8],
    ask: &'a Ask,
    before: Lent,
    /// What plain Saiga comes to, where something is claimed of it.
    plain: Option<Watched>,
}

/// What one budget brought.
struct Tried {
    budget: u64,
    answer: Answer,
    left: Lent,
}

impl Place<'_> {
    /// Parts (a), (b) and (d) and the claims on circles, over budgets around the boundaries.
    fn try_budgets<E: Engine + ?Sized>(
        &self,
        engine: &mut E,
        own: Tried,
        counts: &mut Counts,
    ) -> Result<(), (&'static str, String)> {
        let mut tried: Vec<Tried> = self
            .budgets(&own.answer)
            .into_iter()
            .map(|budget| {
                let mut left = self.before.clone();
                let answer = left.ask(engine, self.sheet, &self.ask.question, budget);
                Tried {
                    budget,
                    answer,
                    left,
                }
            })
            .collect();
        if own.budget <= MOST_STEPS {
            tried.push(own);
            tried.sort_by_key(|tried| tried.budget);
        } else {
            try_tally(&own.answer, counts).map_err(|detail| (TALLY, detail))?;
            self.try_b(&own, counts).map_err(|detail| (B, detail))?;
        }
        if let Some(plain) = self.plain {
            try_circles_3(plain, counts).map_err(|detail| (CIRCLES_3, detail))?;
        }
        for tried in &tried {
            try_tally(&tried.answer, counts).map_err(|detail| (TALLY, detail))?;
            self.try_a(tried, counts).map_err(|detail| (A, detail))?;
            self.try_b(tried, counts).map_err(|detail| (B, detail))?;
            if let Some(plain) = self.plain {
                try_circles_1_and_2(plain, tried.budget, &tried.answer, counts)?;
            }
            self.try_capacity_0(tried, counts)
                .map_err(|detail| (CAPACITY_0, detail))?;
        }
        for pair in tried.windows(2) {
            try_d(&pair[0], &pair[1], counts).map_err(|detail| (D, detail))?;
        }
        Ok(())
    }

    /// Permitted budgets beside the question's own, each once.
    fn budgets(&self, own: &Answer) -> Vec<u64> {
        let steps = own.steps.max(0) as u64;
        let mut budgets = vec![0, MOST_STEPS];
        let n = self.plain.and_then(boundary).unwrap_or(steps);
        for middle in [steps, n, self.ask.budget] {
            budgets.extend([
                middle.saturating_sub(1),
                middle,
                middle.saturating_add(1),
                middle.saturating_mul(2),
            ]);
        }
        budgets.retain(|budget| *budget <= MOST_STEPS && *budget != self.ask.budget);
        budgets.sort_unstable();
        budgets.dedup();
        budgets
    }

    fn try_a(&self, tried: &Tried, counts: &mut Counts) -> Result<(), String> {
        let Some(Watched { ending, .. }) = self.plain else {
            return Ok(());
        };
        if ending.n().is_none_or(|n| tried.budget < n) {
            return Ok(());
        }
        counts.check(A);
        if tried.answer.number == DEPTH || spares_steps(&tried.answer, ending) {
            return Ok(());
        }
        Err(self.differs(tried))
    }

    fn try_b(&self, tried: &Tried, counts: &mut Counts) -> Result<(), String> {
        match self.plain {
            Some(Watched { ending, .. }) if ended(&tried.answer) => {
                if ending.n().is_none() {
                    counts.check(B_UNSETTLED);
                    return Ok(());
                }
                counts.check(B);
                if spares_steps(&tried.answer, ending) {
                    Ok(())
                } else {
                    Err(self.differs(tried))
                }
            }
            _ => Ok(()),
        }
    }

    fn try_capacity_0(&self, tried: &Tried, counts: &mut Counts) -> Result<(), String> {
        let answer = &tried.answer;
        let Some(Watched { ending, circle }) = self.plain else {
            return Ok(());
        };
        if !self.before.bytes.is_empty() || !(ended(answer) || answer.number == CIRCLE) {
            return Ok(());
        }
        let good = match (ending, circle) {
            (_, Some(Circle { steps, .. })) => {
                answer.number == CIRCLE && answer.steps == steps as i64
            }
            (Ending::Running(n), None) => answer.steps > n as i64,
            (ending, None) => {
                same_ending(answer, ending) && ending.n() == Some(answer.steps as u64)
            }
        };
        counts.check(CAPACITY_0);
        if good {
            Ok(())
        } else {
            Err(self.differs(tried))
        }
    }

    fn differs(&self, tried: &Tried) -> String {
        differs(self.plain, tried.budget, &tried.answer)
    }
}

fn differs(plain: Option<Watched>, budget: u64, answer: &Answer) -> String {
    format!("plain Saiga: {plain:?}, but budget {budget} brings {answer}")
}

/// The steps after which plain Saiga ends or comes to a circle.
fn boundary(Watched { ending, circle }: Watched) -> Option<u64> {
    ending.n().or(circle.map(|circle| circle.steps))
}

fn try_circles_1_and_2(
    plain: Watched,
    budget: u64,
    answer: &Answer,
    counts: &mut Counts,
) -> Result<(), (&'static str, String)> {
    if answer.number == CIRCLE {
        match (plain.ending.n(), plain.circle) {
            (None, Some(_)) => counts.check(CIRCLES_1),
            (None, None) => counts.check(CIRCLES_1_UNSETTLED),
            (Some(_), _) => return Err((CIRCLES_1, differs(Some(plain), budget, answer))),
        }
    }
    if plain.circle.is_some() && budget <= MOST_STEPS {
        if ![CIRCLE, SPENT, DEPTH].contains(&answer.number) {
            return Err((CIRCLES_2, differs(Some(plain), budget, answer)));
        }
        counts.check(CIRCLES_2);
    }
    Ok(())
}

fn try_circles_3(plain: Watched, counts: &mut Counts) -> Result<(), String> {
    counts.check(match (plain.ending.n(), plain.circle) {
        (Some(_), Some(circle)) => {
            return Err(format!("plain Saiga: {:?}, after {circle:?}", plain.ending));
        }
        (None, None) => CIRCLES_3_UNSETTLED,
        (Some(_), None) | (None, Some(_)) => CIRCLES_3,
    });
    Ok(())
}

/// Whether an answer reports an ending at all.
fn ended(answer: &Answer) -> bool {
    [0, NULL, OVERFLOW].contains(&answer.number)
}

/// The ending that an answer reports: number, type and value.
fn reported(answer: &Answer) -> (i64, i64, i64) {
    (answer.number, answer.typ, answer.value)
}

/// Whether an answer reports an ending of plain Saiga.
fn same_ending(answer: &Answer, ending: Ending) -> bool {
    let reported = reported(answer);
    match ending {
        Ending::Value(value, _) => value
            .base()
            .is_some_and(|base| reported == (0, i64::from(base.code()), value.number())),
        Ending::Null(_) => reported == (NULL, 0, 0),
        Ending::Overflow(_) => reported == (OVERFLOW, 0, 0),
        Ending::Running(_) => false,
    }
}

/// Whether an answer reports an ending of plain Saiga in no more steps than it took.
fn spares_steps(answer: &Answer, ending: Ending) -> bool {
    let within = |n| answer.steps <= n as i64;
    same_ending(answer, ending) && ending.n().is_some_and(within)
}

fn try_tally(answer: &Answer, counts: &mut Counts) -> Result<(), String> {
    counts.check(TALLY);
    if adds_up(answer) {
        Ok(())
    } else {
        Err(format!("the rows of {} do not add up", shown(answer)))
    }
}

fn try_d(smaller: &Tried, larger: &Tried, counts: &mut Counts) -> Result<(), String> {
    if smaller.answer.number == SPENT {
        return Ok(());
    }
    counts.check(D);
    if smaller.answer == larger.answer && smaller.left == larger.left {
        return Ok(());
    }
    let stores = if smaller.left == larger.left {
        "alike"
    } else {
        "different"
    };
    Err(format!(
        "budget {} brings {}, budget {} brings {}, stores left {stores}",
        smaller.budget,
        shown(&smaller.answer),
        larger.budget,
        shown(&larger.answer)
    ))
}

/// What two stores bring, each with its capacity.
fn try_c(
    (capacity, before): (usize, &Answer),
    (larger, after): (usize, &Answer),
    counts: &mut Counts,
) -> Result<(), String> {
    if !ended(before) {
        return Ok(());
    }
    counts.check(C);
    if reported(before) == reported(after) && after.steps <= before.steps {
        return Ok(());
    }
    Err(format!(
        "capacity {capacity} brings {before}, capacity {larger} brings {after}"
    ))
}

/// Part (c) and the claims on circles, with what plain Saiga comes to and the answers that the list brought.
fn try_larger_stores<E: Engine + ?Sized>(
    engine: &mut E,
    case: &Case,
    expected: &[(Option<Watched>, Answer)],
    counts: &mut Counts,
) -> Result<(), Violation> {
    let capacity = case.store.len() / ENTRY;
    let mut larger = vec![
        capacity + 1,
        capacity + 5,
        (capacity + MOST_ENTRIES).div_ceil(2),
        MOST_ENTRIES,
    ];
    larger.retain(|larger| *larger > capacity && *larger <= MOST_ENTRIES);
    larger.dedup();
    for larger in larger {
        let with_larger = Case {
            store: (0..larger * ENTRY)
                .map(|at| (at * 151 + larger) as u8)
                .collect(),
            ..case.clone()
        };
        let mut expected = expected.iter().zip(&case.asks).enumerate();
        let mut violation = None;
        engine.list(&with_larger, &mut |after, _| {
            let (question, ((plain, before), ask)) =
                expected.next().expect("an answer to each question");
            if violation.is_some() {
                return;
            }
            let tried = try_tally(&after, counts)
                .map_err(|detail| (TALLY, detail))
                .and_then(|()| {
                    try_c((capacity, before), (larger, &after), counts)
                        .map_err(|detail| (C, detail))
                })
                .and_then(|()| match plain {
                    Some(plain) => try_circles_1_and_2(*plain, ask.budget, &after, counts),
                    None => Ok(()),
                });
            violation = tried.err().map(|(part, detail)| Violation {
                part,
                question,
                detail,
            });
        });
        if let Some(violation) = violation {
            return Err(violation);
        }
    }
    Ok(())
}

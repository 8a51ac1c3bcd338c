//! Times of the programs on a row, their repetitions interleaved.

use std::time::Duration;

use crate::programs::{Outcome, Program};
use crate::rows::Row;

/// How long and how often each program is timed.
pub struct Effort {
    pub repetitions: u32,
    /// A repetition has as many runs as this takes, and one at least.
    pub time: Duration,
    /// A program whose one run is so long that its repetitions would take more has fewer of them, and three at least.
    pub most: Duration,
}

/// Nanoseconds for each unit of some rows, row by row and program by program: the least of the repetitions, since what disturbs a program
/// only ever adds. The rows and programs take turns, so that a slow spell of the machine falls on all of them.
///
/// Fails where the programs' outcomes are not all the same.
pub fn measure<const R: usize, const N: usize>(
    rows: [&Row; R],
    programs: &mut [Box<dyn Program>; N],
    effort: &Effort,
) -> Result<[[f64; N]; R], String> {
    let mut plans = Vec::with_capacity(R);
    for row in rows {
        plans.push(Plan::new(row, programs, effort)?);
    }
    let once: Duration = plans.iter().map(|plan| plan.slowest).sum();
    let possible = effort.most.as_nanos() / once.as_nanos().max(1);
    let repetitions = (effort.repetitions as usize).min((possible as usize).max(3));
    let mut least = [[f64::INFINITY; N]; R];
    for repetition in 0..repetitions {
        for (plan, least) in plans.iter().zip(&mut least) {
            for turn in 0..N {
                let which = (repetition + turn) % N;
                let each = plan.run(which, &mut programs[which])?;
                least[which] = least[which].min(each);
            }
        }
    }
    Ok(least)
}

/// A row, what its programs bring, and how often each runs it in a repetition.
struct Plan<'r, const N: usize> {
    row: &'r Row,
    expected: Outcome,
    runs: [u32; N],
    slowest: Duration,
}

impl<'r, const N: usize> Plan<'r, N> {
    fn new(
        row: &'r Row,
        programs: &mut [Box<dyn Program>; N],
        effort: &Effort,
    ) -> Result<Plan<'r, N>, String> {
        let first = programs
            .each_mut()
            .map(|program| program.run(row.work, &row.input, 1));
        let times = first.each_ref().map(|(time, _)| *time);
        let expected = first[0].1.clone();
        if let Some((_, other)) = first.iter().find(|(_, outcome)| *outcome != expected) {
            return Err(difference(row, &expected, other));
        }
        let runs = times.map(|time| {
            let runs = effort.time.as_nanos() / time.as_nanos().max(1);
            runs.clamp(1, 1_000_000) as u32
        });
        Ok(Plan {
            row,
            expected,
            runs,
            slowest: times.into_iter().max().unwrap_or_default(),
        })
    }

    /// Nanoseconds for each unit, in one repetition of a program.
    fn run(&self, which: usize, program: &mut Box<dyn Program>) -> Result<f64, String> {
        let runs = self.runs[which];
        let (time, outcome) = program.run(self.row.work, &self.row.input, runs);
        // The last of several runs finds what the ones before it left past the kept entries.
        if outcome.brought != self.expected.brought {
            return Err(difference(self.row, &self.expected, &outcome));
        }
        let units = self.row.units(&self.expected);
        Ok(time.as_nanos() as f64 / f64::from(runs) / units)
    }
}

fn difference(row: &Row, expected: &Outcome, other: &Outcome) -> String {
    let stores = match expected.store == other.store {
        true => "the same",
        false => "different",
    };
    format!(
        "{}: {:?} and {:?}, stores {stores}",
        row.name, expected.brought, other.brought
    )
}

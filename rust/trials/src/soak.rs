//! Generated cases put to a check.

use crate::case::{Case, Listed};
use crate::compare::Counts;
use crate::engine::Oracle;
use crate::generate;
use crate::shrink::shrink;

/// A case that failed, shrunk, with the oracle's answers to it.
#[derive(Debug)]
pub struct Failure {
    pub list: Listed,
    pub detail: String,
}

/// Puts this many cases to a check, or as many as it takes until one fails. The cases are the seed's, whatever the machine's speed.
pub fn soak(
    cases: u64,
    seed: u64,
    mut check: impl FnMut(&Case) -> Result<Counts, String>,
) -> Result<Counts, Box<Failure>> {
    let mut counts = Counts::default();
    for number in 0..cases {
        let case = generate::case(seed, number);
        match check(&case) {
            Ok(more) => counts.add(&more),
            Err(_) => {
                let case = shrink(case, |case| check(case).is_err());
                let detail = check(&case).expect_err("a shrunk case fails");
                let list = case.answered(&mut Oracle::default());
                return Err(Box::new(Failure { list, detail }));
            }
        }
    }
    Ok(counts)
}

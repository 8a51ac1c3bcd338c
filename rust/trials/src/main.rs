//! The commands that try the second evaluator.

use std::process::ExitCode;

use trials::commands::{self, replay, run, vectors};
use trials::{as_rules, demand3, Oracle};

const USAGE: &str = "usage: trials vectors FILE | self CASES SEED | replay FILE";

fn main() -> ExitCode {
    let mut oracle = Oracle::default();
    commands::main(|words| match *words {
        ["vectors", file] => vectors(&mut [("the oracle", &mut oracle)], file),
        ["self", cases, seed] => match (cases.parse(), seed.parse()) {
            (Ok(cases), Ok(seed)) => run(cases, seed, |case| {
                let tried = demand3(&mut oracle, case);
                let mut counts = tried.map_err(|violation| violation.to_string())?;
                counts.add(&as_rules(&mut oracle, case)?);
                Ok(counts)
            }),
            _ => Err(USAGE.into()),
        },
        ["replay", file] => replay(&mut [("the oracle", &mut oracle)], file),
        _ => Err(USAGE.into()),
    })
}

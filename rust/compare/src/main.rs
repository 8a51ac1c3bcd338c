//! The commands of the comparison.

use std::process::ExitCode;

use compare::Ways;
use trials::commands::{self, replay, run, vectors};
use trials::Oracle;

const USAGE: &str = "usage: compare vectors FILE | run LISTS SEED | replay FILE";

fn main() -> ExitCode {
    let mut ways = Ways::default();
    commands::main(|words| match *words {
        ["vectors", file] => vectors(&mut ways.all(), file),
        ["run", lists, seed] => match (lists.parse(), seed.parse()) {
            (Ok(lists), Ok(seed)) => run(lists, seed, |case| ways.agree_and_keep_demand_3(case)),
            _ => Err(USAGE.into()),
        },
        ["replay", file] => {
            let mut oracle = Oracle::default();
            let [a, b, c, d] = ways.all();
            replay(&mut [("the oracle", &mut oracle), a, b, c, d], file)
        }
        _ => Err(USAGE.into()),
    })
}

//! What the programs over engines share: files of lists, generated runs, and a list shown step by step.

use std::env;
use std::fs;
use std::process::ExitCode;

use oracle::ask::read_question;
use oracle::plain;
use oracle::sheet::Sheet;

use crate::case::{read_lists, Case, Listed};
use crate::compare::{adds_up, shown, Counts};
use crate::demand3::{demand3, PLAIN_LIMIT};
use crate::engine::Engine;
use crate::soak::soak;
use crate::written_out::as_rules;

/// An engine and what it is called in messages.
pub type Named<'e> = (&'static str, &'e mut dyn Engine);

fn lists(file: &str) -> Result<Vec<Listed>, String> {
    let text = fs::read_to_string(file).map_err(|error| format!("{file}: {error}"))?;
    let lists = read_lists(&text).map_err(|error| format!("{file}: {error}"))?;
    match lists.len() {
        0 => Err(format!("{file}: no lists")),
        _ => Ok(lists),
    }
}

/// Answers every list of a file and compares with what the file says.
pub fn vectors(engines: &mut [Named], file: &str) -> Result<(), String> {
    let mut different = 0;
    let lists = lists(file)?;
    for (name, engine) in engines {
        let mut counts = Counts::default();
        for listed in &lists {
            let answered = listed.case.clone().answered(*engine);
            for answer in &answered.answers {
                counts.answer(answer);
            }
            if answered != *listed || !answered.answers.iter().all(adds_up) {
                different += 1;
                println!("the file says\n{listed}{name} says\n{answered}");
            }
        }
        print!("{counts}");
        println!("{} lists by {name}", lists.len());
    }
    match different {
        0 => Ok(()),
        _ => Err(format!(
            "{different} lists differ, or their rows do not add up"
        )),
    }
}

/// Puts generated lists to a check. Every number, 0 and those of the stops, and every row of the tally must be met.
pub fn run(
    cases: u64,
    seed: u64,
    check: impl FnMut(&Case) -> Result<Counts, String>,
) -> Result<(), String> {
    let counts = soak(cases, seed, check).map_err(|failure| {
        format!(
            "{}{}\nto see it again, put the lines from `sheet` to `left` into a file and `replay` that",
            failure.list, failure.detail
        )
    })?;
    print!("{counts}");
    println!("{cases} lists of seed {seed}");
    match (&counts.unmet()[..], &counts.unmet_rows()[..]) {
        ([], []) => Ok(()),
        ([], rows) => Err(format!("rows never met: {rows:?}")),
        (numbers, _) => Err(format!("numbers never met: {numbers:?}")),
    }
}

/// Shows each list of a file with the engines' answers, and plain Saiga's endings and circles, and tries demand 3 on it, and forwards beside rules in
/// their place.
pub fn replay(engines: &mut [Named], file: &str) -> Result<(), String> {
    let mut bad = 0;
    for listed in lists(file)? {
        let case = &listed.case;
        let sheet = Sheet::read(&case.sheet).ok();
        let answered: Vec<Listed> = engines
            .iter_mut()
            .map(|(_, engine)| case.clone().answered(*engine))
            .collect();
        for (place, ask) in case.asks.iter().enumerate() {
            let budget = ask.budget;
            println!(
                "question {place}, budget {budget}: the file says {}",
                shown(&listed.answers[place])
            );
            for ((name, _), answered) in engines.iter().zip(&answered) {
                println!("  {name}: {}", shown(&answered.answers[place]));
            }
            if let Some(sheet) = &sheet {
                if let Ok(question) = read_question(&ask.question, sheet) {
                    let plain = plain::watch(sheet, &question, PLAIN_LIMIT);
                    println!("  plain Saiga: {plain:?}");
                }
            }
        }
        for ((name, engine), answered) in engines.iter_mut().zip(&answered) {
            if *answered != listed {
                bad += 1;
                println!("different; {name} says\n{answered}");
            }
            if let Err(violation) = demand3(*engine, case) {
                bad += 1;
                println!("{name}: {violation}");
            }
            if let Err(differs) = as_rules(*engine, case) {
                bad += 1;
                println!("{name}: {differs}");
            }
        }
    }
    match bad {
        0 => Ok(()),
        _ => Err(format!("{bad} failings")),
    }
}

/// A program that runs the command of its arguments. A message says what went wrong.
pub fn main(command: impl FnOnce(&[&str]) -> Result<(), String>) -> ExitCode {
    let arguments: Vec<String> = env::args().skip(1).collect();
    let words: Vec<&str> = arguments.iter().map(String::as_str).collect();
    match command(&words) {
        Ok(()) => ExitCode::SUCCESS,
        Err(message) => {
            eprintln!("{message}");
            ExitCode::FAILURE
        }
    }
}

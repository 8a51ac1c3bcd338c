//! Measures the engine, the same algorithm in Rust and the second evaluator on the same inputs in one run, and prints a
//! table of nanoseconds and ratios (docs/MEASUREMENTS.md).

mod host;
mod hostile;
mod inputs;
mod library;
mod measure;
mod padding;
mod programs;
mod rows;

use std::hint::black_box;
use std::process::ExitCode;
use std::time::Duration;

use trials::commands;

use measure::{measure, Effort};
use programs::{Engine, Input, Oracle, Program, Twin, Work};

const USAGE: &str = "usage: bench [--quick] [TEXT]\nTEXT leaves out the rows that do not name it";

/// Many short repetitions: on a busy machine some of them are left alone.
const THOROUGH: Effort = Effort {
    repetitions: 101,
    time: Duration::from_millis(3),
    most: Duration::from_secs(3),
};

/// Enough to see that the programs agree and that the table is whole.
const QUICK: Effort = Effort {
    repetitions: 3,
    time: Duration::from_millis(1),
    most: Duration::from_secs(1),
};

fn main() -> ExitCode {
    commands::main(|words| match *words {
        [] => print_table(&THOROUGH, ""),
        ["--quick"] => print_table(&QUICK, ""),
        [text] if !text.starts_with('-') => print_table(&THOROUGH, text),
        ["--quick", text] => print_table(&QUICK, text),
        _ => Err(USAGE.into()),
    })
}

/// Prints the rows whose names have a text in them.
fn print_table(effort: &Effort, text: &str) -> Result<(), String> {
    black_box(padding::place());
    let mut programs: [Box<dyn Program>; 3] = [
        Box::new(Engine::default()),
        Box::new(Twin::default()),
        Box::new(Oracle),
    ];
    println!(
        "Measured on {} on {}; the least of {} repetitions; {} bytes before the programs.\n",
        host::date(),
        host::machine(),
        effort.repetitions,
        padding::BYTES
    );
    println!("| Row | {COLUMNS} |");
    println!("|---|{}", RULE.repeat(5));
    let ordinary = rows::ordinary(left);
    for row in ordinary.iter().filter(|row| row.name.contains(text)) {
        let [times] = measure([row], &mut programs, effort)?;
        println!("| {} | {} |", row.name, columns(times));
    }
    println!("\n| Hostile row | {COLUMNS} | Ordinary row | Engine | Twin | Oracle |");
    println!("|---|{}", RULE.repeat(9));
    let mut hostile = rows::hostile();
    hostile.retain(|(row, _)| row.name.contains(text));
    for (row, kind) in hostile {
        let kind = ordinary.iter().find(|row| row.name == kind);
        let kind = kind.expect("an ordinary row of this name");
        let [times, others] = measure([&row, kind], &mut programs, effort)?;
        let [engine, twin, oracle] = [0, 1, 2].map(|which| times[which] / others[which]);
        println!(
            "| {} | {} | {} | {engine:.2} | {twin:.2} | {oracle:.2} |",
            row.name,
            columns(times),
            kind.name
        );
    }
    Ok(())
}

const COLUMNS: &str = "Engine, ns | Twin, ns | Oracle, ns | Engine/twin | Engine/oracle";
const RULE: &str = "---|";

/// The columns of every row.
fn columns([engine, twin, oracle]: [f64; 3]) -> String {
    let times = [engine, twin, oracle].map(nanoseconds).join(" | ");
    format!("{times} | {:.2} | {:.2}", engine / twin, engine / oracle)
}

/// An input with the store that the second evaluator leaves after its question.
fn left(input: &Input) -> Input {
    let (_, outcome) = Oracle.run(Work::Question, input, 1);
    Input {
        store: outcome.store,
        kept: outcome.brought.fields[5] as u64,
        ..input.clone()
    }
}

/// Three digits that matter, or all before the point.
fn nanoseconds(time: f64) -> String {
    match time {
        ..10.0 => format!("{time:.2}"),
        10.0..100.0 => format!("{time:.1}"),
        _ => format!("{time:.0}"),
    }
}

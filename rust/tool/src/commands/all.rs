//! `all`: an attribute of every node.

use sofretu::{Answer, MOST_STEPS};

use crate::commands::ask;
use crate::failure::{Failure, FINE};
use crate::files;
use crate::kept::Occurrence;
use crate::progress::Progress;
use crate::question;
use crate::usage::Line;
use crate::words;
use crate::Console;

/// Asks every node.
pub fn run(line: &Line, console: &mut Console) -> Result<u8, Failure> {
    let (sheet, listing) = files::accepted(line.path(0))?;
    let (attribute, declared) = question::attribute(line, &listing.sheet, 1)?;
    let parameter = question::parameter(line, &listing.sheet, (attribute, declared), 2)?;
    let budget = line.number("--budget", MOST_STEPS)?;
    let csv = line.flag("--csv");
    let nodes = &listing.sheet.nodes;
    let mut session = ask::open(&sheet, None)?;
    let mut progress = Progress::new(nodes.len(), console.bar);
    let mut code = FINE;
    let name = format!("a{attribute}{}", words::argument(parameter));
    let heading = match csv {
        true => "node,kind,number,value,steps,words".into(),
        false => format!("{:5}  {:4}  {:>9}  {name}", "node", "kind", "steps"),
    };
    // The rows come when the bar is gone: both can be on one terminal.
    let mut rows = vec![heading];
    for (node, kind) in (0..).zip(nodes) {
        let asked = Occurrence {
            node,
            attribute,
            parameter,
        };
        let answer = session.ask(&asked.question(), budget);
        code = code.max(ask::code(&answer));
        rows.push(match csv {
            true => comma_separated(node, *kind, &answer),
            false => row(node, *kind, &answer, console),
        });
        progress.done(usize::from(node) + 1, console.err);
    }
    progress.end(console.err);
    for row in rows {
        writeln!(console.out, "{row}")?;
    }
    Ok(code)
}

fn row(node: u16, kind: u8, answer: &Answer, console: &Console) -> String {
    let steps = words::thousands(answer.steps);
    let value = match answer.value {
        Ok(value) => words::value(value),
        Err(refusal) => console.paint.bad(&refusal.to_string()),
    };
    format!(
        "{:5}  {:4}  {steps:>9}  {value}",
        format!("n{node}"),
        format!("k{kind}")
    )
}

/// Numbers as document 01 has them: number 0 brings a value; words are those of a stop.
fn comma_separated(node: u16, kind: u8, answer: &Answer) -> String {
    let steps = answer.steps;
    match answer.value {
        Ok(value) => format!("{node},{kind},0,{},{steps},", words::value(value)),
        Err(refusal) => {
            let number = refusal.stop.number();
            format!("{node},{kind},{number},,{steps},\"{}\"", refusal.stop)
        }
    }
}

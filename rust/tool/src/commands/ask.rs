//! `ask`: one question, and the store kept in a file.

use std::path::Path;

use sofretu::{Answer, Session, Store, Tally, ENTRY, MOST_ENTRIES, MOST_STEPS};

use crate::failure::{Failure, FINE, REFUSED};
use crate::files;
use crate::kept::Occurrence;
use crate::question;
use crate::store_file::{self, fingerprint, StoreFile};
use crate::usage::Line;
use crate::words;
use crate::Console;

/// Puts a question.
pub fn run(line: &Line, console: &mut Console) -> Result<u8, Failure> {
    let (sheet, listing) = files::accepted(line.path(0))?;
    let asked = question::occurrence(line, &listing.sheet)?;
    let budget = line.number("--budget", MOST_STEPS)?;
    let file = line.option("--store").map(Path::new);
    let mut session = open(&sheet, file)?;
    let before = session.store().kept();
    let answer = session.ask(&asked.question(), budget);
    // What was worked out is kept, whoever reads the answer.
    let written = match file {
        Some(path) if answer.kept != before => keep(path, &sheet, session.store()),
        _ => Ok(()),
    };
    said(&asked, &answer, console)?;
    written?;
    Ok(code(&answer))
}

/// A session with what a file keeps for the sheet, or with nothing.
pub fn open(sheet: &sofretu::Sheet, file: Option<&Path>) -> Result<Session, Failure> {
    let entries = match file {
        Some(path) => store_file::entries_for(path, sheet.bytes())?,
        None => Vec::new(),
    };
    let kept = entries.len() / ENTRY;
    let mut bytes = entries;
    bytes.resize(ENTRY * MOST_ENTRIES, 0);
    let store = Store::from_parts(bytes, kept as u64);
    Session::open(sheet, store).map_err(|unopened| {
        let path = file.unwrap_or(Path::new("the store"));
        Failure::Refused(path.into(), unopened.to_string())
    })
}

/// Writes what a store keeps for a sheet.
fn keep(path: &Path, sheet: &sofretu::Sheet, store: &Store) -> Result<(), Failure> {
    let kept = usize::try_from(store.kept()).unwrap_or(0) * ENTRY;
    let file = StoreFile {
        sheet: fingerprint(sheet.bytes()),
        entries: store.bytes()[..kept].into(),
    };
    store_file::write(path, &file)
}

fn said(asked: &Occurrence, answer: &Answer, console: &mut Console) -> Result<(), Failure> {
    writeln!(console.out, "{}", equation(asked, answer, console))?;
    writeln!(console.out, "{}", spent(answer))?;
    for row in table(&answer.tally) {
        writeln!(console.out, "{row}")?;
    }
    Ok(())
}

/// `n1.a2 = 700`, or the stop in words.
pub fn equation(asked: &Occurrence, answer: &Answer, console: &Console) -> String {
    let asked = asked.words();
    match answer.value {
        Ok(value) => format!("{asked} = {}", console.paint.good(&words::value(value))),
        Err(refusal) => {
            let stop = console.paint.bad(&refusal.to_string());
            let origin = refusal.stop.origin();
            format!("{asked} has no value: {stop} (caused by {origin})")
        }
    }
}

/// `8 steps, 5 figures kept`.
fn spent(answer: &Answer) -> String {
    let steps = words::count(answer.steps, "step");
    format!("{steps}, {} kept", words::count(answer.kept, "figure"))
}

/// The rows that are not 0, under each other.
fn table(tally: &Tally) -> Vec<String> {
    let attributes = tally.attributes();
    let mut rows: Vec<(String, u64)> = attributes
        .map(|(attribute, steps)| (format!("a{attribute}"), steps))
        .collect();
    rows.push(("applications".into(), tally.applications()));
    rows.push(("conditions".into(), tally.conditions()));
    rows.retain(|(_, steps)| *steps > 0);
    let row =
        |(what, steps): &(String, u64)| format!("  {what:12}  {:>9}", words::thousands(*steps));
    rows.iter().map(row).collect()
}

/// The exit code that an answer has.
pub fn code(answer: &Answer) -> u8 {
    match answer.value {
        Ok(_) => FINE,
        Err(_) => REFUSED,
    }
}

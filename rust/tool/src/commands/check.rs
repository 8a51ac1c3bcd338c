//! `check`: whether a sheet is accepted; if not, the stop and the lines around its place.

use std::io;
use std::path::Path;

use sofretu::{Refusal, Stop};

use crate::commands::show::text;
use crate::failure::{Failure, FINE, REFUSED};
use crate::files;
use crate::listing::{Listing, Shows};
use crate::sheet::Sheet;
use crate::usage::Line;
use crate::words;
use crate::Console;

/// How many lines are shown before and after the faulty one.
const AROUND: usize = 3;

/// Checks a sheet.
pub fn run(line: &Line, console: &mut Console) -> Result<u8, Failure> {
    let path = line.path(0);
    let file = files::sheet(path)?;
    let listing = Listing::of(&file.bytes);
    match sofretu::Sheet::check(&file.bytes) {
        Ok(_) => {
            let accepted = console.paint.good("accepted");
            let counts = counts(&listing, file.bytes.len());
            writeln!(console.out, "{}: {accepted}: {counts}", path.display())?;
            Ok(FINE)
        }
        Err(refusal) => {
            refused(path, refusal, &listing, &file.bytes, console)?;
            Ok(REFUSED)
        }
    }
}

/// `3 attributes, 3 nodes, 6 figures, 2 rules, 0 forwards, 103 bytes`.
fn counts(listing: &Listing, bytes: usize) -> String {
    let count = |shows, what| words::count(listing.count(shows) as u64, what);
    [
        count(Shows::Attribute, "attribute"),
        count(Shows::Node, "node"),
        count(Shows::Figure, "figure"),
        count(Shows::Rule, "rule"),
        count(Shows::Forward, "forward"),
        words::count(bytes as u64, "byte"),
    ]
    .join(", ")
}

fn refused(
    path: &Path,
    refusal: Refusal,
    listing: &Listing,
    bytes: &[u8],
    console: &mut Console,
) -> io::Result<()> {
    let said = console.paint.bad(&refusal.to_string());
    writeln!(console.out, "{}: {said}", path.display())?;
    writeln!(console.out, "caused by {}", refusal.stop.origin())?;
    let place = usize::try_from(refusal.place).unwrap_or(usize::MAX);
    match refusal.stop {
        Stop::SheetLength => Ok(()),
        Stop::NoDefinition => {
            let pair = ((place / 32) as u16, (place % 32) as u8);
            gap(pair, listing, bytes, console)
        }
        _ => match listing.line_at(place) {
            Some(faulty) => around(&[faulty], listing, bytes, console),
            None => Ok(()),
        },
    }
}

/// The lines around some, which are marked.
fn around(
    marked: &[usize],
    listing: &Listing,
    bytes: &[u8],
    console: &mut Console,
) -> io::Result<()> {
    let near = |number: usize| marked.iter().any(|mark| mark.abs_diff(number) <= AROUND);
    writeln!(console.out)?;
    let mut last = None;
    for (number, line) in listing.lines.iter().enumerate() {
        if !near(number) {
            continue;
        }
        if last.is_some_and(|last| last + 1 < number) {
            writeln!(console.out, "  ...")?;
        }
        last = Some(number);
        let mark = if marked.contains(&number) { ">" } else { " " };
        let mark = console.paint.bad(mark);
        writeln!(console.out, "{mark} {}", text(line, bytes, console.paint))?;
    }
    Ok(())
}

/// Stop 8: the pair without definition, what could define it, and the lines that declare it.
fn gap(
    (node, attribute): (u16, u8),
    listing: &Listing,
    bytes: &[u8],
    console: &mut Console,
) -> io::Result<()> {
    let sheet = &listing.sheet;
    let declared = |shows, number: usize| {
        let lines = listing.lines.iter().enumerate();
        let mut shown = lines.filter(|(_, line)| line.shows == shows);
        shown.nth(number).map(|(line, _)| line)
    };
    let marked: Vec<usize> = [
        declared(Shows::Attribute, usize::from(attribute)),
        declared(Shows::Node, usize::from(node)),
    ]
    .into_iter()
    .flatten()
    .collect();
    around(&marked, listing, bytes, console)?;
    for line in gap_lines(sheet, node, attribute) {
        writeln!(console.out, "{line}")?;
    }
    Ok(())
}

fn gap_lines(sheet: &Sheet, node: u16, attribute: u8) -> Vec<String> {
    let kind = sheet.nodes[usize::from(node)];
    let result = sheet.attribute(attribute).map(|declared| declared.result);
    let result = result.map_or(String::new(), |result| result.to_string());
    let others = sheet.gaps().count() - 1;
    let mut lines = vec![
        String::new(),
        format!("n{node}, of kind k{kind}, has no a{attribute}. Any of these defines it:"),
        format!("  a figure   n{node}.a{attribute} = a value of type {result}"),
        format!("  a rule     k{kind}.a{attribute} = an expression of type {result}, for all nodes of k{kind}"),
        format!("  a forward  k{kind} -> an expression of type Node, for all that nodes of k{kind} lack"),
    ];
    if others > 0 {
        let more = words::count(others as u64, "other pair");
        let verb = if others == 1 { "lacks" } else { "lack" };
        lines.push(format!("{more} of node and attribute {verb} a definition."));
    }
    lines
}

//! `why`: a figure explained as a tree of equations, and held to the library's answer.

use std::path::Path;

use sofretu::{Answer, Refusal, Stop, Tally, MOST_ENTRIES, MOST_STEPS};

use crate::commands::ask;
use crate::evaluate::{explain, Due, Explained};
use crate::expression::Expr;
use crate::failure::{Failure, DISAGREES};
use crate::files;
use crate::kept::{Kept, Occurrence};
use crate::question;
use crate::sheet::Sheet;
use crate::tree::{Equation, Source, Tree};
use crate::usage::Line;
use crate::words;
use crate::Console;

/// How many characters of an equation's source are shown.
const WIDTH: usize = 100;

/// Explains a figure.
pub fn run(line: &Line, console: &mut Console) -> Result<u8, Failure> {
    let (sheet, listing) = files::accepted(line.path(0))?;
    let asked = question::occurrence(line, &listing.sheet)?;
    let budget = line.number("--budget", MOST_STEPS)?;
    let limit = |name, without| {
        let number = line.number(name, without)?;
        Ok::<usize, Failure>(usize::try_from(number).unwrap_or(usize::MAX))
    };
    let tree = Tree::new(limit("--lines", 200)?, limit("--depth", 12)?);
    let mut session = ask::open(&sheet, line.option("--store").map(Path::new))?;
    let question = asked.question();
    let kept = kept(&listing.sheet, session.store());
    let answer = session.ask(&question, budget);
    let explained = match (listing.sheet.question(&question), kept) {
        (Ok(question), Some(kept)) => explain(&listing.sheet, kept, &question, budget, tree),
        _ => return disagrees("it does not read the store or the question", console),
    };
    let store = session.store().bytes();
    told(&listing.sheet, &asked, &explained, &answer, store, console)
}

/// Writes an explanation that agrees with the library's answer and the store that it left; says so of any other.
pub fn told(
    sheet: &Sheet,
    asked: &Occurrence,
    explained: &Explained,
    answer: &Answer,
    store: &[u8],
    console: &mut Console,
) -> Result<u8, Failure> {
    if let Some(difference) = difference(explained, answer, store) {
        return disagrees(&difference, console);
    }
    writeln!(console.out, "{}", ask::equation(asked, answer, console))?;
    for row in tree_rows(sheet, &explained.tree, console) {
        writeln!(console.out, "{row}")?;
    }
    for row in stop_rows(sheet, explained) {
        writeln!(console.out, "{row}")?;
    }
    writeln!(console.out, "{}", summary(explained))?;
    Ok(ask::code(answer))
}

/// The explanation's copy of what a store keeps.
pub fn kept(sheet: &Sheet, store: &sofretu::Store) -> Option<Kept> {
    let kept = usize::try_from(store.kept()).ok()?;
    let entries = store.bytes().get(..kept.checked_mul(sofretu::ENTRY)?)?;
    Kept::read(sheet, entries, store.capacity().min(MOST_ENTRIES))
}

/// Says on both outputs that the library alone is to be believed.
fn disagrees(difference: &str, console: &mut Console) -> Result<u8, Failure> {
    let loud = "THE EXPLANATION DISAGREES WITH THE LIBRARY";
    writeln!(console.out, "{}", console.paint.bad(loud))?;
    let _ = writeln!(
        console.err,
        "sofretu: {loud}: {difference}. Believe the library, and report this sheet."
    );
    Ok(DISAGREES)
}

/// How an explanation differs from the library's answer and the store that it left.
pub fn difference(explained: &Explained, answer: &Answer, store: &[u8]) -> Option<String> {
    let tally = Tally::from(explained.rows);
    let ending = explained.ending.map_err(Refusal::from);
    let kept = explained.kept.count() as u64;
    let same = ending == answer.value
        && explained.steps == answer.steps
        && kept == answer.kept
        && tally == answer.tally;
    if !same {
        let told = match ending {
            Ok(value) => words::value(value),
            Err(refusal) => refusal.to_string(),
        };
        return Some(format!(
            "the library answers {answer} in {}, the explanation {told} in {tally} with {kept} kept",
            answer.tally
        ));
    }
    let left = explained.kept.bytes();
    (!store.starts_with(left)).then(|| "they keep different figures".into())
}

/// The tree as lines with columns: equation, steps, source.
fn tree_rows(sheet: &Sheet, tree: &Tree, console: &Console) -> Vec<String> {
    let mut children = vec![Vec::new(); tree.equations.len()];
    let mut roots = Vec::new();
    for (number, equation) in tree.equations.iter().enumerate() {
        match equation.parent {
            Some(parent) => children[parent].push(number),
            None => roots.push(number),
        }
    }
    let mut rows = vec![Row {
        front: String::new(),
        text: "equation".into(),
        steps: "steps".into(),
        source: "from".into(),
    }];
    for root in roots {
        branch(sheet, tree, &children, root, ["", ""], &mut rows);
    }
    if tree.left_out.0 > 0 {
        rows.push(Row::left_out("", tree.left_out));
    }
    if rows.len() == 1 {
        return Vec::new();
    }
    let widths = |row: &Row| row.front.chars().count() + row.text.chars().count();
    let width = rows.iter().map(widths).max().unwrap_or(0);
    let digits = rows.iter().map(|row| row.steps.len()).max().unwrap_or(0);
    let paint = console.paint;
    let line = |row: &Row| {
        let gap = " ".repeat(width - widths(row));
        let source = paint.source(&row.source);
        let line = format!(
            "{}{}{gap}  {:>digits$}  {source}",
            paint.faint(&row.front),
            row.text,
            row.steps
        );
        line.trim_end().to_string()
    };
    let mut lines = vec![String::new()];
    lines.extend(rows.iter().map(line));
    lines.push(String::new());
    lines
}

/// A line of the tree.
struct Row {
    front: String,
    text: String,
    steps: String,
    source: String,
}

impl Row {
    fn left_out(front: &str, (number, steps): (u64, u64)) -> Row {
        Row {
            front: front.into(),
            text: format!("... {} more", words::thousands(number)),
            steps: words::thousands(steps),
            source: "not shown".into(),
        }
    }
}

/// An equation and what it needed. `fronts` stand before its own line and before those below it.
fn branch(
    sheet: &Sheet,
    tree: &Tree,
    children: &[Vec<usize>],
    number: usize,
    fronts: [&str; 2],
    rows: &mut Vec<Row>,
) {
    let equation = &tree.equations[number];
    rows.push(Row {
        front: fronts[0].into(),
        text: equation_text(equation),
        steps: words::thousands(equation.steps),
        source: source(
            sheet,
            &equation.occurrence,
            equation.source,
            equation.unkept,
        ),
    });
    let below = &children[number];
    let more = equation.left_out.0 > 0;
    for (place, child) in below.iter().enumerate() {
        let last = place + 1 == below.len() && !more;
        let [own, further] = if last {
            ["└─ ", "   "]
        } else {
            ["├─ ", "│  "]
        };
        let fronts = [fronts[1].to_string() + own, fronts[1].to_string() + further];
        let fronts = [fronts[0].as_str(), fronts[1].as_str()];
        branch(sheet, tree, children, *child, fronts, rows);
    }
    if more {
        rows.push(Row::left_out(
            &format!("{}└─ ", fronts[1]),
            equation.left_out,
        ));
    }
}

fn equation_text(equation: &Equation) -> String {
    let asked = equation.occurrence.words();
    match equation.value {
        Some(value) => format!("{asked} = {}", words::value(value)),
        None => format!("{asked} has no value"),
    }
}

/// `rule at 72: if equal(this.a1)(0) then this.a0.a2 else this.a1`.
fn source(sheet: &Sheet, of: &Occurrence, source: Source, unkept: bool) -> String {
    let kind = sheet.nodes[usize::from(of.node)];
    let unkept = if unkept { ", not kept" } else { "" };
    let expression = |what: &str, at: usize, found: Option<&(Expr, usize)>| {
        let text = found.map_or(String::new(), |(expr, _)| words::expression(expr));
        words::shortened(&format!("{what} at {at}{unkept}: {text}"), WIDTH)
    };
    match source {
        Source::Kept(entry) => format!("kept, entry {entry}"),
        Source::Figure(at) => format!("figure at {at}{unkept}"),
        Source::Rule(at) => expression("rule", at, sheet.rules.get(&(kind, of.attribute))),
        Source::Forward(at) => expression("forward", at, sheet.forwards.get(&kind)),
    }
}

/// What was due at a stop of the run, and the way that led there.
fn stop_rows(sheet: &Sheet, explained: &Explained) -> Vec<String> {
    let (Some(due), Err(stop)) = (explained.due, explained.ending) else {
        return Vec::new();
    };
    let open = &explained.open;
    let width = open
        .iter()
        .map(|(of, _)| of.words().len())
        .max()
        .unwrap_or(0);
    let way = |from: usize, to: usize| {
        let part = open[from..to].iter();
        part.map(move |(of, from)| {
            format!(
                "  {:width$}  {}",
                of.words(),
                source(sheet, of, *from, false)
            )
        })
    };
    let mut rows = Vec::new();
    // What needs itself is open; the circle is from there on.
    let again = open.iter().position(|(of, _)| due == Due::Attribute(*of));
    let circle = again.filter(|_| stop == Stop::Circle).unwrap_or(open.len());
    if circle > 0 {
        rows.push("the way there:".into());
        rows.extend(way(0, circle));
    }
    if circle < open.len() {
        rows.push("the circle:".into());
        rows.extend(way(circle, open.len()));
    }
    rows.push(format!("due: {}", due_text(due)));
    rows.push(String::new());
    rows
}

fn due_text(due: Due) -> String {
    match due {
        Due::Attribute(occurrence) => occurrence.words(),
        Due::OfNull(attribute, parameter) => {
            format!("null.a{attribute}{}", words::argument(parameter))
        }
        Due::Sum(4, x, y) => format!("add({x})({y}), which is {}", i64::from(x) + i64::from(y)),
        Due::Sum(_, x, y) => format!(
            "subtract({x})({y}), which is {}",
            i64::from(x) - i64::from(y)
        ),
        Due::Application => "a function given an argument".into(),
        Due::Condition => "the branch of an IF".into(),
    }
}

fn summary(explained: &Explained) -> String {
    let steps = words::count(explained.steps, "step");
    let kept = words::count(explained.kept.count() as u64, "figure");
    let new = explained.kept.count() - explained.kept_before;
    let mut text = String::new();
    if explained.tree.is_cut() {
        text.push_str("more of the tree is shown with --depth and --lines\n");
    }
    if explained.kept.is_full() {
        text.push_str("the store is full: what is worked out is not kept\n");
    }
    text + &format!("{steps}, {kept} kept, {new} of them new; the library's answer is the same")
}

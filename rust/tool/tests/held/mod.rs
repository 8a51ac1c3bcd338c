//! Listings and explanations held to the library.

use sofretu::{Refusal, Session, Sheet, Stop, Store};
use tool::commands::show::text;
use tool::commands::why::{difference, kept};
use tool::evaluate::{explain, Explained};
use tool::listing::{Listing, MOST_BYTES};
use tool::paint::Paint;
use tool::tree::Tree;
use trials::case::hex;
use trials::Case;

/// The library's check of a sheet.
pub fn verdict(bytes: &[u8]) -> Result<(), Refusal> {
    Sheet::check(bytes).map(|_| ())
}

/// Lists bytes. Each belongs to one line, and the first fault is the library's stop.
pub fn listed(bytes: &[u8]) -> Listing {
    let listing = Listing::of(bytes);
    let mut covered = 0;
    for line in &listing.lines {
        assert_eq!(line.at, covered, "a line begins where the one before ends");
        covered += line.length;
        let text = text(line, bytes, Paint::default());
        assert!(!text.contains('\n'), "{text}");
    }
    assert_eq!(covered, bytes.len(), "the lines have all bytes");

    let faulty = listing.lines.iter().find(|line| line.fault.is_some());
    let fault = faulty.and_then(|line| Some((line.fault.as_ref()?.0, line.at as u64)));
    let gap = listing.sheet.gaps().next();
    let gap = gap.map(|(node, attribute)| 32 * u64::from(node) + u64::from(attribute));
    let found = match (fault, gap) {
        _ if bytes.len() > MOST_BYTES => Err(Stop::SheetLength.into()),
        (Some((stop, at)), _) => Err(stop.at(at)),
        (None, Some(place)) => Err(Stop::NoDefinition.at(place)),
        (None, None) => Ok(()),
    };
    assert_eq!(found, verdict(bytes), "{}", hex(bytes));
    listing
}

/// Explains each question of a list whose sheet and first store the library takes, each with what the one before left. The endings' numbers are counted.
pub fn explained(case: &Case, listing: &Listing, endings: &mut [u64; 21]) {
    let Ok(sheet) = Sheet::check(&case.sheet) else {
        return;
    };
    let store = Store::from_parts(case.store.clone(), case.kept);
    let Ok(mut session) = Session::open(&sheet, store) else {
        return;
    };
    for ask in &case.asks {
        let before = kept(&listing.sheet, session.store()).expect("the store passed");
        let answer = session.ask(&ask.question, ask.budget);
        endings[answer.fields()[0] as usize] += 1;
        match listing.sheet.question(&ask.question) {
            // The budget is looked at before the question.
            Err(stop) if ask.budget <= sofretu::MOST_STEPS => {
                assert_eq!(answer.value, Err(stop.into()), "{}", hex(&ask.question));
            }
            Err(_) => assert_eq!(answer.value, Err(Stop::Budget.into())),
            Ok(question) => {
                let tree = Tree::new(50, 6);
                let told = explain(&listing.sheet, before, &question, ask.budget, tree);
                let differs = difference(&told, &answer, session.store().bytes());
                assert_eq!(
                    differs,
                    None,
                    "{} on {}",
                    hex(&ask.question),
                    hex(&case.sheet)
                );
                adds_up(&told);
            }
        }
    }
}

/// What a tree shows and leaves out of an equation takes no more steps than the equation, and a stop's way is its open equations.
fn adds_up(told: &Explained) {
    let tree = &told.tree;
    assert!(tree.equations.len() <= 50 && tree.equations.iter().all(|equation| equation.depth < 6));
    let mut needed = vec![0; tree.equations.len()];
    let mut roots = tree.left_out.1;
    for equation in &tree.equations {
        match equation.parent {
            Some(parent) => needed[parent] += equation.steps,
            None => roots += equation.steps,
        }
    }
    assert!(roots <= told.steps);
    for (equation, needed) in tree.equations.iter().zip(needed) {
        assert!(equation.steps > needed + equation.left_out.1);
        // In a full store an occurrence can have had a value before it was due again.
        let open = told.open.iter().any(|(of, _)| *of == equation.occurrence);
        assert!(equation.value.is_some() || open);
    }
    let run = told.ending.is_err_and(|stop| stop != Stop::Budget);
    assert_eq!(told.due.is_some(), run);
    assert!(run || told.open.is_empty());
}

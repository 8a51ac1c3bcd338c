//! The twin against the second evaluator: every field and every row of every answer, every byte of the store after it.

use trials::case::{read_lists, Ask, Case};
use trials::compare::{compare_check, Counts};
use trials::engine::Lent;
use trials::examples::read_examples;
use trials::generate;
use trials::{compare, Answer, Call, Engine};
use twin::{Rows, Scratch, Sheet, Store};

/// A tally in which nothing is as a call leaves it.
const LENT: Rows = [u64::MAX; 34];

/// The twin in scratch that earlier calls have written.
fn lent() -> impl Engine {
    let mut scratch = Box::<Scratch>::default();
    move |call: Call| {
        let mut tally = LENT;
        let answer = twin::ask_in(call, &mut scratch, &mut tally);
        Answer::new(answer.fields(), tally)
    }
}

/// The twin's check, for `compare_check`.
fn check(call: Call) -> Result<(), (i64, i64)> {
    let Scratch { index, links, .. } = &mut *Box::<Scratch>::default();
    twin::check(call, index, links).map_err(|refusal| (refusal.stop as i64, refusal.place as i64))
}

/// The list's questions put to a sheet and a store that are checked once, beside `ask` for each.
fn checked_once(case: &Case) {
    let Scratch {
        index,
        links,
        stack,
    } = &mut *Box::<Scratch>::default();
    let mut bytes = case.store.clone();
    let Ok(sheet) = Sheet::check(&case.sheet, index) else {
        return;
    };
    let Ok(mut store) = Store::check(&sheet, &mut bytes, case.kept, links) else {
        return;
    };
    let mut lent = Lent::first(case);
    for Ask { question, budget } in &case.asks {
        let [mut expected_tally, mut tally] = [LENT; 2];
        let expected = twin::ask(
            lent.call(&case.sheet, question, *budget),
            &mut expected_tally,
        );
        let given = twin::ask_checked(&sheet, &mut store, question, *budget, stack, &mut tally);
        assert_eq!(given, expected);
        assert_eq!(tally, expected_tally);
        assert_eq!(store.entries.as_flattened(), lent.bytes);
        lent.kept = given.kept;
    }
}

fn agree(lists: impl Iterator<Item = Case>) -> Counts {
    let mut lent = lent();
    let mut counts = Counts::default();
    for case in lists {
        match compare(&mut lent, &case) {
            Ok(more) => counts.add(&more),
            Err(mismatch) => panic!("{mismatch}\n{}", case.answered(&mut lent)),
        }
        if let Err(differs) = compare_check(check, &case) {
            panic!("{differs}\n{}", case.answered(&mut lent));
        }
        checked_once(&case);
    }
    counts
}

#[test]
fn the_vectors_agree() {
    let text = include_str!("../../../tests/vectors/lists.txt");
    let lists = read_lists(text).expect("the vectors' form");
    for listed in &lists {
        assert_eq!(listed.case.clone().answered(&mut lent()), *listed);
    }
    agree(lists.into_iter().map(|listed| listed.case));
}

#[test]
fn the_examples_of_the_stops_page_agree() {
    let page = include_str!("../../../docs/STOPS.md");
    let examples = read_examples(page).expect("the page's form");
    let counts = agree(examples.into_iter().map(|example| example.case));
    assert_eq!(counts.unmet(), Vec::<i64>::new());
}

#[test]
fn generated_lists_agree_and_meet_every_number() {
    let counts = agree((0..3_000).map(|number| generate::case(11, number)));
    assert_eq!(counts.unmet(), Vec::<i64>::new());
}

#[test]
fn ask_takes_the_stack_that_it_says() {
    assert!(size_of::<Scratch>() < 221_000);
}

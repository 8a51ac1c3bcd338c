//! Lists of questions put in every way to the proved engine, against what the vectors, the page of stops and the second
//! evaluator say.

use compare::Ways;
use trials::case::read_lists;
use trials::examples::read_examples;
use trials::soak::soak;
use trials::write::*;
use trials::{Ask, Case, Oracle};

#[test]
fn the_vectors_agree() {
    let lists = read_lists(include_str!("../../../tests/vectors/lists.txt")).expect("their form");
    assert_eq!(lists.len(), 518);
    let mut ways = Ways::default();
    for listed in lists {
        for (name, engine) in ways.all() {
            assert_eq!(listed.case.clone().answered(engine), listed, "{name}");
        }
    }
}

#[test]
fn the_examples_of_the_stops_page_agree() {
    let page = include_str!("../../../docs/STOPS.md");
    let mut ways = Ways::default();
    for example in read_examples(page).expect("the page's form") {
        for (name, engine) in ways.all() {
            let answered = example.case.clone().answered(engine);
            let given = example.given(&answered.answers);
            assert_eq!(given, example.answers, "{name}");
        }
    }
}

#[test]
fn demand_3_holds_in_every_way_on_the_vectors() {
    let lists = read_lists(include_str!("../../../tests/vectors/lists.txt")).expect("their form");
    let mut ways = Ways::default();
    for listed in lists {
        for (name, engine) in ways.all() {
            if let Err(violation) = trials::demand3(engine, &listed.case) {
                panic!("{name}: {violation}\n{listed}");
            }
        }
    }
}

#[test]
fn generated_lists_agree() {
    let mut ways = Ways::default();
    let soaked = soak(300, 7, |case| ways.agree_and_keep_demand_3(case));
    match soaked {
        Ok(counts) => assert_eq!(counts.unmet_rows(), [0; 0]),
        Err(failure) => panic!("{}{}", failure.list, failure.detail),
    }
}

/// One node and an Int attribute: the number of steps down from its parameter to 0.
fn countdown() -> Vec<u8> {
    let before = of(&THIS, 0, &binary(SUBTRACT, &PARAMETER, &int(1)));
    let further = binary(ADD, &int(1), &before);
    let steps = if_else(&binary(LE, &PARAMETER, &int(0)), &PARAMETER, &further);
    [attribute(2, 2), node(0), rule(0, 0, &steps), end()].concat()
}

#[test]
fn stores_of_every_capacity_are_filled_alike() {
    // Each question goes 60 further than the one before, which is too deep once the store is full.
    let asks: Vec<Ask> = (0..=18i32)
        .map(|time| Ask {
            budget: 1_000_000,
            question: of(&node_literal(0), 0, &int(60 * time)),
        })
        .collect();
    let mut ways = Ways::default();
    for capacity in 0..=1_024 {
        let case = Case {
            sheet: countdown(),
            store: vec![0xEE; 12 * capacity],
            kept: 0,
            asks: asks.clone(),
        };
        let counts = ways.agree(&case).expect("no difference");
        assert!(counts.capacities.contains(&capacity));
        let listed = case.answered(&mut Oracle::default());
        assert_eq!(listed.kept, capacity as u64);
    }
}

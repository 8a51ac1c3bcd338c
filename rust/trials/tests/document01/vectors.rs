//! The lists of tests/vectors, worked out by a separate reader of documents 01 and 02.

use trials::case::read_lists;
use trials::compare::adds_up;
use trials::{demand3, Oracle};

const LISTS: &str = include_str!("../../../../tests/vectors/lists.txt");

#[test]
fn the_oracle_agrees_with_every_list() {
    let lists = read_lists(LISTS).expect("the text form");
    assert_eq!(lists.len(), 518);
    let mut oracle = Oracle::default();
    for listed in lists {
        assert!(listed.answers.iter().all(adds_up), "{listed}");
        assert_eq!(listed.case.clone().answered(&mut oracle), listed);
    }
}

#[test]
fn demand_3_holds_on_every_list() {
    let lists = read_lists(LISTS).expect("the text form");
    let mut oracle = Oracle::default();
    let mut checks = 0;
    for listed in lists {
        let counts = demand3(&mut oracle, &listed.case).unwrap_or_else(|violation| {
            panic!("{violation}\n{listed}");
        });
        checks += counts.checks.values().sum::<u64>();
    }
    assert!(checks > 1_000);
}

//! The examples of docs/STOPS.md.

use trials::examples::read_examples;
use trials::Oracle;

const PAGE: &str = include_str!("../../../../docs/STOPS.md");

#[test]
fn the_oracle_agrees_with_every_example() {
    let examples = read_examples(PAGE).expect("the page's form");
    for number in (0..=17).chain([20]) {
        let of_number: Vec<_> = examples
            .iter()
            .filter(|example| example.number == number)
            .collect();
        assert!(!of_number.is_empty(), "no example of {number}");
        for example in of_number {
            assert!(!example.answers.is_empty(), "{example:?}");
            assert!(example
                .answers
                .iter()
                .all(|given| given.fields[0] == number));
            let answered = example.case.clone().answered(&mut Oracle::default());
            assert_eq!(example.given(&answered.answers), example.answers);
        }
    }
    let mut given = examples.iter().flat_map(|example| &example.answers);
    assert!(given.any(|given| given.tally.is_some()), "no tally");
}

#[test]
fn a_page_that_is_not_understood_says_where() {
    let read = |page: &str| read_examples(page).expect_err("a fault");
    assert_eq!(read("## 2: x\n```\nsheet 4\n```"), "line 3: not understood");
    assert_eq!(read("## 2: x\n```\nshet 41\n```"), "line 3: not understood");
    assert_eq!(
        read("## 2: x\n```\nask 1 10\n```"),
        "line 3: not understood"
    );
    assert_eq!(
        read("## 2: x\n```\nsheet 5a\ntally no steps\n```"),
        "line 4: not understood"
    );
    assert_eq!(read("## x\n```\nsheet 5a\n```"), "line 3: not understood");
    let store = "## 9: x\n```\nsheet 5a\nstore 12 0 00×11\n```";
    assert_eq!(read(store), "line 4: not understood");
}

//! Document 01, "Sheet L and its questions" and "Likely misreadings"; L12 and L13 as document 02, F-9 and F-4, have them.

use crate::ask;
use crate::common::*;
use oracle::plain::Ending;
use oracle::values::Value;

#[test]
fn sheet_l_has_103_bytes() {
    assert_eq!(sheet_l().len(), 103);
}

#[test]
fn l1_keeps_five_in_order() {
    let mut lent = Lent::new(1_024);
    let given = lent.ask(&sheet_l(), &d(), MOST);
    assert_eq!(given.fields(), [0, 0, 2, 700, 8, 5]);
    let kept = [
        entry(1, OWN, INT_TYPE, 0, 0),
        entry(1, UP, NODE_TYPE, 0, 0),
        entry(0, OWN, INT_TYPE, 0, 700),
        entry(0, DIAL, INT_TYPE, 0, 700),
        entry(1, DIAL, INT_TYPE, 0, 700),
    ]
    .concat();
    assert_eq!(lent.store[..60], kept);
    assert!(lent.store[60..].iter().all(|byte| *byte == 0xEE));
}

#[test]
fn l2_keeps_nothing_that_was_still_open() {
    let mut lent = Lent::new(1_024);
    let given = lent.ask(&sheet_l(), &d(), 7);
    assert_eq!(given.fields(), [15, 0, 0, 0, 7, 2]);
    let kept = [entry(1, OWN, INT_TYPE, 0, 0), entry(1, UP, NODE_TYPE, 0, 0)].concat();
    assert_eq!(lent.store[..24], kept);
    assert!(lent.store[24..].iter().all(|byte| *byte == 0xEE));
}

#[test]
fn l3_needs_a_budget_of_8() {
    let given = fresh(&sheet_l(), &d(), 8);
    assert_eq!(given.fields(), [0, 0, 2, 700, 8, 5]);
}

#[test]
fn l4_counts_the_attrapp_of_a_kept_occurrence_and_no_cachewrite() {
    let mut lent = Lent::new(1_024);
    lent.ask(&sheet_l(), &d(), MOST);
    let store = lent.store.clone();
    let given = lent.ask(&sheet_l(), &d(), MOST);
    assert_eq!(given.fields(), [0, 0, 2, 700, 1, 5]);
    assert_eq!(lent.store, store);
}

#[test]
fn l5_is_node_2_alone() {
    let question = of(&node_literal(2), DIAL, &UNIT);
    let given = fresh(&sheet_l(), &question, MOST);
    assert_eq!(given.fields(), [0, 0, 2, 811, 6, 2]);
}

#[test]
fn l6_to_l9_take_fewer_steps_with_more_capacity() {
    let cases = [(1_024, 11, 5), (0, 18, 0), (4, 17, 4), (5, 11, 5)];
    for (capacity, steps, kept) in cases {
        let given = Lent::new(capacity).ask(&sheet_l(), &l6(), MOST);
        assert_eq!(given.fields(), [0, 0, 1, 1, steps, kept], "{capacity}");
    }
}

#[test]
fn l8_keeps_the_old_entries_when_full() {
    let mut lent = Lent::new(4);
    lent.ask(&sheet_l(), &l6(), MOST);
    let kept = [
        entry(1, OWN, INT_TYPE, 0, 0),
        entry(1, UP, NODE_TYPE, 0, 0),
        entry(0, OWN, INT_TYPE, 0, 700),
        entry(0, DIAL, INT_TYPE, 0, 700),
    ]
    .concat();
    assert_eq!(lent.store, kept);
}

#[test]
fn l10_stops_on_null() {
    let mut lent = Lent::new(1_024);
    let given = lent.ask(&sheet_l(), &l10(), MOST);
    assert_eq!(given.fields(), [14, 0, 0, 0, 1, 1]);
    assert_eq!(lent.store[..12], entry(0, UP, NODE_TYPE, 0, 65_535));
}

#[test]
fn l11_takes_no_steps() {
    let given = fresh(&sheet_l(), &int(5), 0);
    assert_eq!(given.fields(), [0, 0, 2, 5, 0, 0]);
}

#[test]
fn l12_stops_after_1_step() {
    let question = of(&node_literal(0), 0, &UNIT);
    for budget in [1, 2, 64, 65, MOST] {
        let given = fresh(&sheet_l12(), &question, budget);
        assert_eq!(given.fields(), [20, 0, 0, 0, 1, 0]);
    }
    let given = fresh(&sheet_l12(), &question, 0);
    assert_eq!(given.fields(), [15, 0, 0, 0, 0, 0]);
}

#[test]
fn l13_stops_after_1_step() {
    let given = fresh(&sheet_l(), &l13(), MOST);
    assert_eq!(given.fields(), [17, 0, 0, 0, 1, 0]);
}

#[test]
fn the_empty_sheet_lacks_its_end_and_the_end_alone_is_accepted() {
    let given = ask(&[], &mut [], 0, &UNIT, 0);
    assert_eq!(given.fields(), [2, 0, 0, 0, 0, 0]);
    let given = ask(&[0x5A], &mut [], 0, &UNIT, 0);
    assert_eq!(given.fields(), [0, 0, 0, 0, 0, 0]);
}

#[test]
fn the_report_programs_four_lines() {
    let mut lent = Lent::new(1_024);
    let questions = [d(), d(), of(&node_literal(2), DIAL, &UNIT), l10()];
    let lines: Vec<String> = questions
        .iter()
        .map(|question| lent.ask(&sheet_l(), question, MOST).to_string())
        .collect();
    assert_eq!(
        lines,
        [
            "0 0 2 700 8 5",
            "0 0 2 700 1 5",
            "0 0 2 811 6 7",
            "14 0 0 0 1 8"
        ]
    );
}

#[test]
fn plain_saiga_on_d_l6_l10_l12_and_l13() {
    let seven_hundred = Value::Int(700);
    assert_eq!(
        plain_ending(&sheet_l(), &d(), 8),
        Ending::Value(seven_hundred, 8)
    );
    assert_eq!(plain_ending(&sheet_l(), &d(), 7), Ending::Running(7));
    assert_eq!(
        plain_ending(&sheet_l(), &l6(), MOST),
        Ending::Value(Value::Bool(true), 18)
    );
    for (question, ending) in [(l10(), Ending::Null(1)), (l13(), Ending::Overflow(1))] {
        assert_eq!(plain_ending(&sheet_l(), &question, 1), ending);
        assert_eq!(plain_ending(&sheet_l(), &question, 0), Ending::Running(0));
    }
    let question = of(&node_literal(0), 0, &UNIT);
    assert_eq!(
        plain_ending(&sheet_l12(), &question, MOST),
        Ending::Running(MOST)
    );
}

#[test]
fn plain_saiga_has_no_limit_on_depth() {
    // Attribute 0 of a parameter p: IF le(p)(0) THEN 0 ELSE add(1)(attribute 0 of p - 1), six steps before it is due.
    let less = binary(5, &PARAMETER, &int(1));
    let further = binary(4, &int(1), &of(&THIS, 0, &less));
    let expr = if_else(&binary(0, &PARAMETER, &int(0)), &int(0), &further);
    let sheet = [attribute(2, 2), node(0), rule(0, 0, &expr), end()].concat();
    let question = of(&node_literal(0), 0, &int(1_000));
    assert_eq!(
        plain_ending(&sheet, &question, MOST),
        Ending::Value(Value::Int(1_000), 1_000 * 8 + 4)
    );
    // 64 forms take 64 AttrApps and, in each, le twice, IF, add once and subtract twice.
    let given = fresh(&sheet, &question, MOST);
    assert_eq!(given.fields(), [16, 0, 0, 0, 64 * 7, 0]);
}

#[test]
fn each_parameter_has_its_own_entry() {
    let sheet = [attribute(2, 2), node(0), rule(0, 0, &PARAMETER), end()].concat();
    let of_int = |value| of(&node_literal(0), 0, &int(value));
    let mut lent = Lent::new(4);
    let sum = binary(4, &of_int(3), &binary(4, &of_int(9), &of_int(3)));
    let given = lent.ask(&sheet, &sum, MOST);
    assert_eq!(given.fields(), [0, 0, 2, 15, 7, 2]);
    let kept = [entry(0, 0, INT_TYPE, 3, 3), entry(0, 0, INT_TYPE, 9, 9)].concat();
    assert_eq!(lent.store[..24], kept);
}

#[test]
fn a_figure_holds_for_every_parameter_and_is_kept_for_each() {
    let sheet = [attribute(3, 1), node(0), figure(0, 0, 65_535), end()].concat();
    let of_bool = |value: &[u8]| of(&node_literal(0), 0, value);
    let question = binary(2, &of_bool(&TRUE), &of_bool(&FALSE));
    let mut lent = Lent::new(3);
    let given = lent.ask(&sheet, &question, MOST);
    assert_eq!(given.fields(), [0, 0, 1, 1, 4, 2]);
    let kept = [
        entry(0, 0, NODE_TYPE, 1, 65_535),
        entry(0, 0, NODE_TYPE, 0, 65_535),
    ]
    .concat();
    assert_eq!(lent.store, [kept, vec![0xEE; 12]].concat());
}

#[test]
fn null_is_met_after_the_parameter() {
    let parameter = if_else(&TRUE, &UNIT, &UNIT);
    let question = of(&NULL, OWN, &parameter);
    assert_eq!(
        fresh(&sheet_l(), &question, 0).fields(),
        [15, 0, 0, 0, 0, 0]
    );
    assert_eq!(
        fresh(&sheet_l(), &question, 1).fields(),
        [14, 0, 0, 0, 1, 0]
    );
}

//! Stop 16 (document 01, "Stops by origin"), which is due for what is not kept (document 02, F-8).

use crate::common::*;
use trials::Answer;

/// A chain of `length` nodes. Attribute 1 is the node before, null at node 0; attribute 0 is that of the node before,
/// 5 at node 0.
fn chain(length: u16) -> Vec<u8> {
    let before = of(&of(&THIS, 1, &UNIT), 0, &UNIT);
    let ups = (1..length).flat_map(|number| figure(number, 1, i32::from(number) - 1));
    [
        attribute(2, 0),
        attribute(3, 0),
        node(0).repeat(usize::from(length)),
        figure(0, 0, 5),
        figure(0, 1, 65_535),
        ups.collect(),
        rule(0, 0, &before),
        end(),
    ]
    .concat()
}

#[test]
fn stop_16_is_due_inside_64_open_forms() {
    let sheet = chain(70);
    // Node n's attribute opens n forms before node 0's figure is due.
    let question = |number| of(&node_literal(number), 0, &UNIT);
    let given = fresh(&sheet, &question(63), MOST);
    assert_eq!(given.fields(), [0, 0, 2, 5, 127, 127]);
    // Inside the 64th form even the figure of `up` is one too deep.
    let given = fresh(&sheet, &question(64), MOST);
    assert_eq!(given.fields(), [16, 0, 0, 0, 127, 63]);
    let given = fresh(&sheet, &question(64), 127);
    assert_eq!(given.fields(), [15, 0, 0, 0, 127, 63]);
}

#[test]
fn stop_16_counts_only_forms_that_stand_around() {
    // Attribute 1 opens ten forms of attribute 0, the question ten of attribute 1: 110 in all, two at a time.
    let sum_of = |part: &[u8]| (1..10).fold(part.to_vec(), |sum, _| binary(4, &sum, part));
    let sheet = [
        attribute(2, 0),
        attribute(2, 0),
        node(0),
        rule(0, 0, &int(3)),
        rule(0, 1, &sum_of(&of(&THIS, 0, &UNIT))),
        end(),
    ]
    .concat();
    let question = sum_of(&of(&node_literal(0), 1, &UNIT));
    let given = Lent::new(0).ask(&sheet, &question, MOST);
    let steps = 10 * (1 + 10 + 9 * 2) + 9 * 2;
    assert_eq!(given.fields(), [0, 0, 2, 300, steps, 0]);
}

#[test]
fn stop_16_is_not_for_what_is_kept() {
    let sheet = chain(70);
    let question = |number| of(&node_literal(number), 0, &UNIT);
    let mut lent = Lent::new(1_024);
    let given = lent.ask(&sheet, &question(1), MOST);
    assert_eq!(given.fields(), [0, 0, 2, 5, 3, 3]);
    // Nodes 65 to 2 open 64 forms; inside the 64th, node 2's `up` is a figure that is not kept.
    let given = lent.ask(&sheet, &question(65), MOST);
    assert_eq!(given.fields(), [16, 0, 0, 0, 127, 66]);
    // Now it is kept, as every `up` from 65 to 3 is, and as node 1's attribute is, which is due next.
    let given = lent.ask(&sheet, &of(&node_literal(2), 1, &UNIT), MOST);
    assert_eq!(given.fields(), [0, 0, 3, 1, 1, 67]);
    for budget in [127, 128] {
        let given = lent.ask(&sheet, &question(65), budget);
        assert_eq!(given.fields(), [15, 0, 0, 0, budget as i64, 67]);
    }
    let given = lent.ask(&sheet, &question(65), 129);
    assert_eq!(given.fields(), [0, 0, 2, 5, 129, 67 + 64]);
}

/// Attribute 0 of the parameter k has attribute 1 due inside k forms, after 6 x (k - 1) + 4 steps, and is twice that. Attribute 1 is 9: a figure
/// of node 0, and of node 1 by a rule.
fn falling() -> Vec<u8> {
    let last = of(&THIS, 1, &UNIT);
    let less = binary(5, &PARAMETER, &int(1));
    let fall = if_else(
        &binary(0, &PARAMETER, &int(1)),
        &binary(4, &last, &last),
        &of(&THIS, 0, &less),
    );
    [
        attribute(INT_TYPE, INT_TYPE),
        attribute(INT_TYPE, UNIT_TYPE),
        node(0),
        node(1),
        figure(0, 1, 9),
        rule(1, 1, &int(9)),
        rule(0, 0, &fall),
        rule(1, 0, &fall),
        end(),
    ]
    .concat()
}

/// Asks for attribute 0 of a node in a new store, after attribute 1 of each node that is named, which is then kept while there is room.
fn fall(capacity: usize, first: &[u16], node: u16, forms: i32, budget: u64) -> Answer {
    let sheet = falling();
    let mut lent = Lent::new(capacity);
    for &number in first {
        let given = lent.ask(&sheet, &of(&node_literal(number), 1, &UNIT), 1);
        assert_eq!((given.number, given.value, given.steps), (0, 9, 1));
    }
    lent.ask(&sheet, &of(&node_literal(node), 0, &int(forms)), budget)
}

#[test]
fn stop_16_is_for_figures_and_rules_that_are_not_kept() {
    for node in [0, 1] {
        // Inside 63 forms neither is too deep, inside 64 both are; where no step of the budget is left, it is spent.
        let given = fall(0, &[], node, 63, MOST);
        assert_eq!(given.fields(), [0, 0, 2, 18, 380, 0]);
        for budget in [MOST, 383] {
            let given = fall(0, &[], node, 64, budget);
            assert_eq!(given.fields(), [16, 0, 0, 0, 382, 0]);
        }
        let given = fall(0, &[], node, 64, 382);
        assert_eq!(given.fields(), [15, 0, 0, 0, 382, 0]);
        // With room for it, nothing is kept before the stop.
        let given = fall(1_024, &[], node, 64, MOST);
        assert_eq!(given.fields(), [16, 0, 0, 0, 382, 0]);
    }
}

#[test]
fn what_is_kept_goes_through_with_64_open_for_one_step_each_time() {
    for node in [0, 1] {
        let given = fall(1, &[node], node, 63, MOST);
        assert_eq!(given.fields(), [0, 0, 2, 18, 380, 1]);
        for budget in [MOST, 386] {
            let given = fall(1, &[node], node, 64, budget);
            assert_eq!(given.fields(), [0, 0, 2, 18, 386, 1]);
        }
        for budget in 382..386 {
            let given = fall(1, &[node], node, 64, budget);
            assert_eq!(given.fields(), [15, 0, 0, 0, budget as i64, 1]);
        }
        // Inside 65 the next form is too deep, whatever is kept of the last.
        let given = fall(1, &[node], node, 65, MOST);
        assert_eq!(given.fields(), [16, 0, 0, 0, 384, 1]);
    }
}

#[test]
fn a_larger_store_spares_a_stop_for_depth() {
    for (node, other) in [(0, 1), (1, 0)] {
        // In a store of one entry the other node's attribute leaves no room.
        let given = fall(1, &[other, node], node, 64, MOST);
        assert_eq!(given.fields(), [16, 0, 0, 0, 382, 1]);
        let given = fall(2, &[other, node], node, 64, MOST);
        assert_eq!(given.fields(), [0, 0, 2, 18, 386, 2]);
    }
}

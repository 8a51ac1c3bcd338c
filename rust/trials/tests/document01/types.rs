//! The type code of an entry (document 02, F-6): what is written, what passes, and dumps of the time when the fourth byte was zero.

use crate::ask;
use crate::common::*;

/// Attributes of each type, none with its result's type for parameter. Node 0 has figures, node 1 rules: the Unit, and 1 of the others.
fn sheet() -> Vec<u8> {
    [
        attribute(UNIT_TYPE, BOOL_TYPE),
        attribute(BOOL_TYPE, INT_TYPE),
        attribute(INT_TYPE, NODE_TYPE),
        attribute(NODE_TYPE, UNIT_TYPE),
        node(0),
        node(1),
        figure(0, 0, 0),
        figure(0, 1, 1),
        figure(0, 2, 1),
        figure(0, 3, 1),
        rule(1, 0, &UNIT),
        rule(1, 1, &TRUE),
        rule(1, 2, &int(1)),
        rule(1, 3, &node_literal(1)),
        end(),
    ]
    .concat()
}

/// An attribute of that sheet, whose number is its type's code, with the parameter that is zeros in four bytes.
fn of_node(number: u16, attribute: u8) -> Vec<u8> {
    let parameters = [FALSE.to_vec(), int(0), node_literal(0), UNIT.to_vec()];
    let parameter = &parameters[usize::from(attribute)];
    of(&node_literal(number), attribute, parameter)
}

/// An entry as it was written before: its fourth byte is zero.
fn old(node: u16, attribute: u8, parameter: i32, value: i32) -> Vec<u8> {
    entry(node, attribute, 0, parameter, value)
}

/// The number and the place that a store is refused with, or zeros. The store stays as it was.
fn verdict(store: &[u8], kept: u64) -> (i64, i64) {
    let mut lent = store.to_vec();
    let given = ask(&sheet(), &mut lent, kept, &UNIT, 0);
    assert_eq!(lent, store);
    (given.number, given.place)
}

#[test]
fn an_entry_carries_the_type_of_its_value() {
    for number in [0, 1] {
        for code in UNIT_TYPE..=NODE_TYPE {
            let value = i32::from(code != UNIT_TYPE);
            let mut store = [0xEE; 24];
            let given = ask(&sheet(), &mut store, 0, &of_node(number, code), 1);
            let answer = [0, 0, code.into(), value.into(), 1, 1];
            assert_eq!(given.fields(), answer);
            let kept = entry(number, code, code, 0, value);
            assert_eq!(store[..], [kept, vec![0xEE; 12]].concat());
        }
    }
}

#[test]
fn another_type_than_the_results_is_refused() {
    for attribute in 0..=4 {
        for code in 0..=255 {
            let expected = if attribute < 4 && code == attribute {
                (0, 0)
            } else {
                (10, 0)
            };
            let store = entry(0, attribute, code, 0, 0);
            assert_eq!(verdict(&store, 1), expected, "{attribute} {code}");
        }
    }
}

#[test]
fn old_dumps_of_units_pass_and_are_left_as_they_were() {
    let dump = [old(0, 0, 0, 0), old(1, 0, 1, 0)].concat();
    let mut store = [dump.clone(), vec![0xEE; 12]].concat();
    let kept_unit = of(&node_literal(1), 0, &TRUE);
    let given = ask(&sheet(), &mut store, 2, &kept_unit, 1);
    assert_eq!(given.fields(), [0, 0, 0, 0, 1, 2]);
    assert_eq!(store, [dump.clone(), vec![0xEE; 12]].concat());
    // What is kept behind them has its type.
    let given = ask(&sheet(), &mut store, 2, &of_node(0, 2), 1);
    assert_eq!(given.fields(), [0, 0, 2, 1, 1, 3]);
    assert_eq!(store, [dump, entry(0, 2, INT_TYPE, 0, 1)].concat());
}

#[test]
fn the_first_entry_of_another_type_in_an_old_dump_is_refused() {
    let units = [old(0, 0, 0, 0), old(1, 0, 1, 0)];
    for attribute in [1, 2, 3] {
        for before in 0..=2 {
            let other = old(0, attribute, 0, 0);
            let store = [&units[..before].concat(), &other[..], &other].concat();
            let place = before as i64;
            assert_eq!(verdict(&store, before as u64 + 2), (10, place));
            // What is not kept is not looked at.
            assert_eq!(verdict(&store, before as u64), (0, 0));
        }
    }
}

#[test]
fn with_nothing_kept_any_bytes_pass() {
    let old = [old(0, 2, 0, 7), old(0, 9, 0, 0)].concat();
    for store in [old, vec![0xFF; 24], (0..24).collect()] {
        assert_eq!(verdict(&store, 0), (0, 0));
    }
}

//! Document 02, F-2: the rows of the tally, which is brought whole by values and by stops 14 to 17 and 20, and is zeros under stops 1 to 13.

use crate::ask;
use crate::common::*;

const APPLICATIONS: usize = 32;
const CONDITIONS: usize = 33;

/// The tally with these rows, and zeros in all others.
fn rows(rows: &[(usize, u64)]) -> [u64; 34] {
    let mut tally = [0; 34];
    for (row, steps) in rows {
        tally[*row] = *steps;
    }
    tally
}

/// The tally of sheet L's attributes up, own and dial, of the applications and of the conditions.
fn of_l([up, own, dial, applications, conditions]: [u64; 5]) -> [u64; 34] {
    rows(&[
        (UP.into(), up),
        (OWN.into(), own),
        (DIAL.into(), dial),
        (APPLICATIONS, applications),
        (CONDITIONS, conditions),
    ])
}

/// The number and the tally of an answer, whose rows add up to its steps.
fn tallied(lent: &mut Lent, sheet: &[u8], question: &[u8], budget: u64) -> (i64, [u64; 34]) {
    let given = lent.ask(sheet, question, budget);
    assert_eq!(given.tally.iter().sum::<u64>(), given.steps as u64);
    (given.number, given.tally)
}

/// The same with a new store.
fn alone(capacity: usize, sheet: &[u8], question: &[u8], budget: u64) -> (i64, [u64; 34]) {
    tallied(&mut Lent::new(capacity), sheet, question, budget)
}

#[test]
fn l1_to_l5() {
    // Dial of 1, own of 1, equal's two AppApp, CondTrue, up of 1, dial of 0, own of 0. Then dial of 1 is kept.
    let mut lent = Lent::new(1_024);
    let l1 = tallied(&mut lent, &sheet_l(), &d(), MOST);
    assert_eq!(l1, (0, of_l([1, 2, 2, 2, 1])));
    let l4 = tallied(&mut lent, &sheet_l(), &d(), MOST);
    assert_eq!(l4, (0, of_l([0, 0, 1, 0, 0])));
    // All but the last step.
    let l2 = alone(1_024, &sheet_l(), &d(), 7);
    assert_eq!(l2, (15, of_l([1, 1, 2, 2, 1])));
    assert_eq!(alone(1_024, &sheet_l(), &d(), 8), l1);
    // Dial of 2, own of 2, equal's two AppApp, CondFalse, own of 2 again, which is kept now.
    let l5 = alone(1_024, &sheet_l(), &of(&node_literal(2), DIAL, &UNIT), MOST);
    assert_eq!(l5, (0, of_l([0, 2, 1, 2, 1])));
}

#[test]
fn l6_to_l9() {
    let cases = [
        // L1, L4 and two AppApp.
        (1_024, [1, 2, 3, 4, 1]),
        // L1 twice and two AppApp.
        (0, [2, 4, 4, 6, 2]),
        // The second time, dial of 1 is not kept; own of 1, up of 1 and dial of 0 are.
        (4, [2, 3, 4, 6, 2]),
        (5, [1, 2, 3, 4, 1]),
    ];
    for (capacity, rows) in cases {
        let given = alone(capacity, &sheet_l(), &l6(), MOST);
        assert_eq!(given, (0, of_l(rows)), "{capacity}");
    }
}

#[test]
fn l10_to_l13() {
    // Up of 0; own of null is not taken.
    let l10 = alone(1_024, &sheet_l(), &l10(), MOST);
    assert_eq!(l10, (14, of_l([1, 0, 0, 0, 0])));
    assert_eq!(alone(1_024, &sheet_l(), &int(5), 0), (0, rows(&[])));
    let itself = of(&node_literal(0), 0, &UNIT);
    for budget in [1, MOST] {
        let l12 = alone(1_024, &sheet_l12(), &itself, budget);
        assert_eq!(l12, (20, rows(&[(0, 1)])));
    }
    // The AppApp that has both arguments is not taken.
    let l13 = alone(1_024, &sheet_l(), &l13(), MOST);
    assert_eq!(l13, (17, of_l([0, 0, 0, 1, 0])));
}

/// As many attributes as there can be, all Int with Unit parameter, of one node: each is 7 by a rule.
fn sheet_32() -> Vec<u8> {
    [
        attribute(INT_TYPE, UNIT_TYPE).repeat(32),
        node(0),
        (0..32)
            .flat_map(|number| rule(0, number, &int(7)))
            .collect(),
        end(),
    ]
    .concat()
}

#[test]
fn each_attribute_has_the_row_of_its_number() {
    for number in 0..32 {
        let question = of(&node_literal(0), number, &UNIT);
        let given = alone(0, &sheet_32(), &question, MOST);
        assert_eq!(given, (0, rows(&[(number.into(), 1)])));
    }
}

#[test]
fn the_last_attribute_stands_beside_the_applications() {
    let seven = |number| of(&node_literal(0), number, &UNIT);
    let sum = binary(ADD, &seven(31), &binary(ADD, &seven(31), &seven(30)));
    let given = alone(1, &sheet_32(), &sum, MOST);
    assert_eq!(given, (0, rows(&[(30, 1), (31, 2), (APPLICATIONS, 4)])));
}

#[test]
fn a_kept_occurrence_counts_in_its_attributes_row() {
    for number in [0, 17, 31] {
        let question = of(&node_literal(0), number, &UNIT);
        let mut lent = Lent::new(1);
        for _ in 0..3 {
            let given = tallied(&mut lent, &sheet_32(), &question, 1);
            assert_eq!(given, (0, rows(&[(number.into(), 1)])));
            assert_eq!(lent.kept, 1);
        }
    }
    // What a lent store keeps, right or wrong, counts in the same row.
    let mut store = entry(1, DIAL, INT_TYPE, 0, -9);
    let given = ask(&sheet_l(), &mut store, 1, &l6(), MOST);
    assert_eq!(given.tally, of_l([0, 0, 2, 2, 0]));
}

#[test]
fn occurrences_of_one_attribute_have_one_row() {
    // Of two nodes, and with two parameters.
    let sheet = [
        attribute(UNIT_TYPE, UNIT_TYPE),
        attribute(INT_TYPE, INT_TYPE),
        node(0).repeat(2),
        rule(0, 0, &UNIT),
        rule(0, 1, &PARAMETER),
        end(),
    ]
    .concat();
    let part = |(node, parameter)| of(&node_literal(node), 1, &int(parameter));
    let question = sum([(0, 3), (1, 3), (0, 4), (1, 3)].map(part));
    for capacity in [0, 1, 1_024] {
        let given = alone(capacity, &sheet, &question, MOST);
        assert_eq!(given, (0, rows(&[(1, 4), (APPLICATIONS, 6)])));
    }
}

#[test]
fn cachewrite_is_in_no_row() {
    // Two forms end, and two entries are kept.
    let mut lent = Lent::new(1_024);
    let question = of(&node_literal(0), DIAL, &UNIT);
    let given = tallied(&mut lent, &sheet_l(), &question, MOST);
    assert_eq!(given, (0, of_l([0, 1, 1, 0, 0])));
    assert_eq!(lent.kept, 2);
}

#[test]
fn an_application_for_each_argument() {
    let cases = [
        (apply(&function(NOT), &TRUE), 1),
        (binary(LE, &int(4), &int(5)), 2),
        (binary(EQUAL, &int(4), &int(5)), 2),
        (binary(2, &NULL, &NULL), 2),
        (binary(ADD, &int(4), &int(5)), 2),
        (binary(SUBTRACT, &int(4), &int(5)), 2),
        (apply(&function(NOT), &binary(LE, &int(4), &int(5))), 3),
    ];
    for (question, applications) in cases {
        let given = alone(0, &end(), &question, MOST);
        assert_eq!(given, (0, rows(&[(APPLICATIONS, applications)])));
    }
}

#[test]
fn both_branches_of_if_have_one_row() {
    for condition in [TRUE, FALSE] {
        let given = alone(0, &end(), &if_else(&condition, &UNIT, &UNIT), MOST);
        assert_eq!(given, (0, rows(&[(CONDITIONS, 1)])));
    }
    // CondTrue, CondFalse, not, CondFalse.
    let last = if_else(&apply(&function(NOT), &TRUE), &int(2), &int(3));
    let question = if_else(&TRUE, &if_else(&FALSE, &int(1), &last), &int(4));
    let given = alone(0, &end(), &question, MOST);
    assert_eq!(given, (0, rows(&[(APPLICATIONS, 1), (CONDITIONS, 3)])));
}

#[test]
fn stop_14_brings_the_tally_so_far() {
    // The parameter is stepped before null is met.
    let question = of(&NULL, OWN, &if_else(&TRUE, &UNIT, &UNIT));
    let given = alone(1, &sheet_l(), &question, MOST);
    assert_eq!(given, (14, of_l([0, 0, 0, 0, 1])));
    // Inside a form: attribute 1 negates that of the node in attribute 0, which is null.
    let sheet = [
        attribute(NODE_TYPE, UNIT_TYPE),
        attribute(BOOL_TYPE, UNIT_TYPE),
        node(0),
        figure(0, 0, 65_535),
        rule(
            0,
            1,
            &apply(&function(NOT), &of(&of(&THIS, 0, &UNIT), 1, &UNIT)),
        ),
        end(),
    ]
    .concat();
    let question = apply(&function(NOT), &of(&node_literal(0), 1, &UNIT));
    for budget in [2, MOST] {
        let given = alone(1, &sheet, &question, budget);
        assert_eq!(given, (14, rows(&[(0, 1), (1, 1)])));
    }
}

#[test]
fn stop_15_brings_the_tally_so_far() {
    // The step that is due is an AppApp, a CondTrue, an AttrApp: it is in no row.
    let sum = binary(ADD, &int(1), &int(2));
    assert_eq!(alone(0, &end(), &sum, 0), (15, rows(&[])));
    assert_eq!(alone(0, &end(), &sum, 1), (15, rows(&[(APPLICATIONS, 1)])));
    let choice = if_else(&apply(&function(NOT), &FALSE), &int(1), &int(2));
    let given = alone(0, &end(), &choice, 1);
    assert_eq!(given, (15, rows(&[(APPLICATIONS, 1)])));
    let attribute = of(&node_literal(0), OWN, &if_else(&TRUE, &UNIT, &UNIT));
    let given = alone(0, &sheet_l(), &attribute, 1);
    assert_eq!(given, (15, of_l([0, 0, 0, 0, 1])));
    // D's eight steps, one more with each budget.
    let steps = [2, 1, APPLICATIONS, APPLICATIONS, CONDITIONS, 0, 2, 1];
    let mut tally = rows(&[]);
    for (budget, row) in (0..).zip(steps) {
        assert_eq!(alone(1_024, &sheet_l(), &d(), budget), (15, tally));
        tally[row] += 1;
    }
    assert_eq!(alone(1_024, &sheet_l(), &d(), 8), (0, tally));
}

#[test]
fn stop_16_brings_the_tally_so_far() {
    // Attribute 31 of p is IF le(p)(0) THEN p ELSE attribute 31 of p - 1, inside a form for each.
    let further = of(&THIS, 31, &binary(SUBTRACT, &PARAMETER, &int(1)));
    let expr = if_else(&binary(LE, &PARAMETER, &int(0)), &PARAMETER, &further);
    let sheet = [
        attribute(INT_TYPE, UNIT_TYPE).repeat(31),
        attribute(INT_TYPE, INT_TYPE),
        node(0),
        (0..31).flat_map(|number| figure(0, number, 0)).collect(),
        rule(0, 31, &expr),
        end(),
    ]
    .concat();
    let question = of(&node_literal(0), 31, &int(100));
    // In each of 64 forms le's two steps, CondFalse, and subtract's two; the 65th AttrApp is not taken.
    let taken = rows(&[(31, 64), (APPLICATIONS, 256), (CONDITIONS, 64)]);
    for budget in [385, MOST] {
        assert_eq!(alone(1_024, &sheet, &question, budget), (16, taken));
    }
    assert_eq!(alone(1_024, &sheet, &question, 384), (15, taken));
}

#[test]
fn stop_17_brings_the_tally_so_far() {
    // Attribute 31 is the lowest Int less attribute 30, which is 1 by an IF.
    let less = binary(SUBTRACT, &int(i32::MIN), &of(&THIS, 30, &UNIT));
    let sheet = [
        attribute(INT_TYPE, UNIT_TYPE).repeat(32),
        node(0),
        (0..30).flat_map(|number| figure(0, number, 0)).collect(),
        rule(0, 30, &if_else(&TRUE, &int(1), &int(0))),
        rule(0, 31, &less),
        end(),
    ]
    .concat();
    let question = binary(LE, &int(0), &of(&node_literal(0), 31, &UNIT));
    // Le's first AppApp, attribute 31, subtract's first, attribute 30 and its CondTrue.
    let taken = rows(&[(30, 1), (31, 1), (APPLICATIONS, 2), (CONDITIONS, 1)]);
    for budget in [5, 6, MOST] {
        assert_eq!(alone(1, &sheet, &question, budget), (17, taken));
    }
    // Attribute 30 is kept then, and its IF is not taken again.
    let mut lent = Lent::new(1);
    assert_eq!(tallied(&mut lent, &sheet, &question, MOST), (17, taken));
    let again = rows(&[(30, 1), (31, 1), (APPLICATIONS, 2)]);
    assert_eq!(tallied(&mut lent, &sheet, &question, 4), (17, again));
}

#[test]
fn stop_20_brings_the_tally_so_far() {
    // Attribute 31 is attribute 30 of this node with 0 or one less, and attribute 30 of p is p less attribute 31.
    let less = binary(SUBTRACT, &PARAMETER, &of(&THIS, 31, &UNIT));
    let parameter = if_else(&TRUE, &binary(SUBTRACT, &int(0), &int(1)), &int(0));
    let sheet = [
        attribute(INT_TYPE, UNIT_TYPE).repeat(30),
        attribute(INT_TYPE, INT_TYPE),
        attribute(INT_TYPE, UNIT_TYPE),
        node(0),
        (0..30).flat_map(|number| figure(0, number, 0)).collect(),
        rule(0, 30, &less),
        rule(0, 31, &of(&THIS, 30, &parameter)),
        end(),
    ]
    .concat();
    let question = of(&node_literal(0), 31, &UNIT);
    // Attribute 31, CondTrue and subtract's two, attribute 30 and subtract's first; attribute 31 is not taken again.
    let taken = rows(&[(30, 1), (31, 1), (APPLICATIONS, 3), (CONDITIONS, 1)]);
    for budget in [6, 7, MOST] {
        assert_eq!(alone(1, &sheet, &question, budget), (20, taken));
    }
    let before = rows(&[(30, 1), (31, 1), (APPLICATIONS, 2), (CONDITIONS, 1)]);
    assert_eq!(alone(1, &sheet, &question, 5), (15, before));
}

#[test]
fn stops_1_to_13_bring_zeros() {
    let l = sheet_l();
    let open = &l[..l.len() - 1];
    let and = |command: Vec<u8>| [open, &command, &end()].concat();
    let sheets = [
        (1, vec![0x5A; 65_537]),
        (2, open.to_vec()),
        (3, [node(0).repeat(1_025), end()].concat()),
        (4, and(rule(16, 0, &UNIT))),
        (5, and(rule(0, DIAL, &int(5)))),
        (6, and(rule(2, DIAL, &[]))),
        (7, and(rule(2, DIAL, &UNIT))),
        (8, [attribute(INT_TYPE, UNIT_TYPE), node(0), end()].concat()),
    ];
    for (number, sheet) in sheets {
        let given = alone(1_024, &sheet, &d(), MOST);
        assert_eq!(given, (number, rows(&[])));
    }
    let of_stores = [
        (9, vec![0; 13], 0),
        (9, vec![0; 12], 2),
        (10, vec![0; 12], 1),
    ];
    for (number, store, kept) in of_stores {
        let given = tallied(&mut Lent { store, kept }, &l, &d(), MOST);
        assert_eq!(given, (number, rows(&[])));
    }
    let questions = [
        (11, d(), MOST + 1),
        (12, Vec::new(), MOST),
        (13, function(ADD), MOST),
    ];
    // Between questions that take steps.
    let mut lent = Lent::new(0);
    for (number, question, budget) in questions {
        let before = tallied(&mut lent, &l, &d(), MOST);
        assert_eq!(before, (0, of_l([1, 2, 2, 2, 1])));
        let given = tallied(&mut lent, &l, &question, budget);
        assert_eq!(given, (number, rows(&[])));
    }
}

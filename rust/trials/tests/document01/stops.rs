//! Document 01, "Stops by origin": each stop, its place, and the order among them. `depth` has stop 16, `overflow` and `circles` stops 17 and 20 of
//! document 02, `forwards` the stops of its forwards.

use crate::ask;
use crate::common::*;
use trials::Answer;

/// Sheet L without its end, and the offset of what follows it.
fn l_open() -> Vec<u8> {
    let mut sheet = sheet_l();
    sheet.pop();
    sheet
}

fn l_and(command: &[u8]) -> Vec<u8> {
    [&l_open()[..], command, &end()].concat()
}

#[test]
fn stop_1_over_65_536_bytes() {
    let mut sheet = vec![0xFF; 65_537];
    assert_eq!(refused(&sheet), (1, 0));
    sheet.pop();
    assert_eq!(refused(&sheet), (2, 0));
}

#[test]
fn stop_2_unknown_command() {
    assert_eq!(refused(&[0x00]), (2, 0));
    assert_eq!(refused(&l_and(&[0x53])), (2, 102));
}

#[test]
fn stop_2_out_of_order() {
    assert_eq!(refused(&l_and(&attribute(0, 0))), (2, 102));
    assert_eq!(refused(&l_and(&node(0))), (2, 102));
    assert_eq!(refused(&l_and(&figure(0, DIAL, 1))), (2, 102));
    let sheet = [node(0), attribute(0, 0), end()].concat();
    assert_eq!(refused(&sheet), (2, 2));
}

#[test]
fn stop_2_cut_commands_have_their_own_offset() {
    let sheet = sheet_l();
    // Offsets at which a command begins.
    let starts = [0, 3, 6, 9, 11, 13, 15, 23, 31, 39, 47, 55, 63, 72, 102, 103];
    for length in 0..sheet.len() {
        let place = starts.iter().rev().find(|start| **start <= length);
        let place = *place.expect("a command begins at 0");
        assert_eq!(refused(&sheet[..length]), (2, place as i64), "{length}");
    }
}

#[test]
fn stop_2_bytes_after_the_end() {
    let sheet = [sheet_l(), vec![0x5A]].concat();
    assert_eq!(refused(&sheet), (2, 103));
    // It comes before 8.
    let sheet = [attribute(0, 0), node(0), end(), vec![0]].concat();
    assert_eq!(refused(&sheet), (2, 6));
}

#[test]
fn stop_2_a_rule_cut_at_its_stated_length_good_or_bad() {
    for length in [1u16, 2, 256, 257, 65_535] {
        let cut = [&[0x52, 99, 99], &length.to_le_bytes()[..]].concat();
        let sheet = [&l_open()[..], &cut].concat();
        assert_eq!(refused(&sheet), (2, 102), "{length}");
    }
    // A length of 0 cannot be cut past its two bytes: the kind is the first fault.
    let sheet = [&l_open()[..], &[0x52, 99, 99, 0, 0]].concat();
    assert_eq!(refused(&sheet), (4, 102));
    let sheet = [&l_open()[..], &[0x52, 99, 99, 0]].concat();
    assert_eq!(refused(&sheet), (2, 102));
}

#[test]
fn stop_3_the_33rd_attribute_and_the_1025th_node() {
    let whole = attribute(0, 0).repeat(32);
    assert_eq!(refused(&[whole.clone(), attribute(9, 9)].concat()), (3, 96));
    assert_eq!(refused(&[whole.clone(), vec![0x41, 0]].concat()), (2, 96));
    let nodes = node(0).repeat(1_024);
    let sheet = [nodes.clone(), node(99), end()].concat();
    assert_eq!(refused(&sheet), (3, 2_048));
    let given = ask(&[nodes, end()].concat(), &mut [], 0, &UNIT, 0);
    assert_eq!(given.number, 0);
    let given = ask(&[whole, end()].concat(), &mut [], 0, &UNIT, 0);
    assert_eq!(given.number, 0);
}

#[test]
fn stop_4_operands_outside_their_values() {
    assert_eq!(refused(&[attribute(4, 0), end()].concat()), (4, 0));
    assert_eq!(refused(&[attribute(3, 4), end()].concat()), (4, 0));
    assert_eq!(refused(&[node(16), end()].concat()), (4, 0));
    let before = [attribute(0, 0), attribute(1, 0), attribute(3, 0), node(0)].concat();
    let place = before.len() as i64;
    let with = |command: Vec<u8>| refused(&[before.clone(), command, end()].concat());
    assert_eq!(with(figure(1, 0, 0)), (4, place));
    assert_eq!(with(figure(65_535, 0, 0)), (4, place));
    assert_eq!(with(figure(0, 3, 0)), (4, place));
    assert_eq!(with(figure(0, 0, 1)), (4, place));
    assert_eq!(with(figure(0, 1, 2)), (4, place));
    assert_eq!(with(figure(0, 2, 1)), (4, place));
    assert_eq!(with(figure(0, 2, -1)), (4, place));
    assert_eq!(with(figure(0, 2, 65_536)), (4, place));
    assert_eq!(with(rule(16, 0, &UNIT)), (4, place));
    assert_eq!(with(rule(0, 3, &UNIT)), (4, place));
    // Kind and attribute come before length and form.
    assert_eq!(with(rule(16, 0, &[])), (4, place));
    assert_eq!(with(rule(0, 3, &[0xFF])), (4, place));
}

#[test]
fn stop_5_second_definitions() {
    // A second figure that is no Bool is stop 4.
    for (second, number) in [(0, 5), (2, 4)] {
        let sheet = [
            attribute(1, 0),
            node(0),
            figure(0, 0, 1),
            figure(0, 0, second),
            end(),
        ];
        assert_eq!(refused(&sheet.concat()), (number, 13));
    }
    for second in [&TRUE[..], &[], &[0x20], &UNIT, &[0x10; 300]] {
        let sheet = [
            attribute(1, 0),
            node(0),
            rule(0, 0, &TRUE),
            rule(0, 0, second),
            end(),
        ];
        assert_eq!(refused(&sheet.concat()), (5, 12), "{second:?}");
    }
}

#[test]
fn stop_6_rule_length_and_form() {
    let bad: [&[u8]; 19] = [
        &[],
        &[0x10, 0x10],
        &[0xFF],
        &[0x11],
        &[0x11, 2],
        &[0x12, 0, 0, 0],
        &[0x13, 0],
        &[0x13, 1, 0],
        &[0x13, 0xFE, 0xFF],
        &[0x14],
        &[0x14, 6],
        &[0x20, 0x10, 0x10],
        &[0x20, 0x10, 0x10, 0x10, 0x10],
        &[0x21, 0x10],
        &[0x22],
        &[0x22, 0, 0x30],
        &[0x22, 1, 0x30, 0x10],
        &[0x23, 0x10, 0x10],
        &[0x20; 256],
    ];
    for expr in bad {
        let sheet = [attribute(0, 0), node(0), rule(0, 0, expr), end()].concat();
        assert_eq!(refused(&sheet), (6, 5), "{expr:?}");
    }
}

/// A Unit expression of 4 × ifs + 1 bytes.
fn nested_unit(ifs: usize) -> Vec<u8> {
    (0..ifs).fold(UNIT.to_vec(), |inner, _| if_else(&TRUE, &inner, &UNIT))
}

#[test]
fn stop_6_begins_at_257_bytes() {
    let longest = if_else(&apply(&function(3), &TRUE), &nested_unit(62), &UNIT);
    assert_eq!(longest.len(), 256);
    let longer = nested_unit(64);
    assert_eq!(longer.len(), 257);
    let sheet = |expr: &[u8]| [attribute(0, 0), node(0), rule(0, 0, expr), end()].concat();
    assert_eq!(refused(&sheet(&longer)), (6, 5));
    assert_eq!(ask(&sheet(&longest), &mut [], 0, &UNIT, 0).number, 0);
}

#[test]
fn stop_7_rules_not_of_their_type() {
    // Attribute 0 gives an Int for a Bool, attribute 1 a Node for a Node.
    let bad = [
        UNIT.to_vec(),
        TRUE.to_vec(),
        THIS.to_vec(),
        PARAMETER.to_vec(),
        function(0),
        apply(&function(4), &int(1)),
        if_else(&int(1), &int(1), &int(1)),
        if_else(&TRUE, &int(1), &UNIT),
        if_else(&TRUE, &UNIT, &int(1)),
        apply(&int(1), &int(1)),
        binary(0, &int(1), &int(1)),
        binary(4, &int(1), &TRUE),
        binary(4, &TRUE, &int(1)),
        binary(2, &int(1), &int(1)),
        apply(&binary(4, &int(1), &int(1)), &int(1)),
        of(&int(1), 0, &TRUE),
        of(&THIS, 0, &UNIT),
        of(&THIS, 1, &THIS),
        // An ill-typed part is a fault even where it would not be stepped.
        if_else(&TRUE, &int(1), &apply(&int(1), &int(1))),
    ];
    for expr in bad {
        let sheet = [
            attribute(2, 1),
            attribute(3, 3),
            node(0),
            rule(0, 0, &expr),
            end(),
        ];
        assert_eq!(refused(&sheet.concat()), (7, 8), "{expr:?}");
    }
}

#[test]
fn branches_of_if_can_have_a_function_type() {
    let chosen = if_else(&PARAMETER, &function(4), &function(5));
    let partly = apply(&chosen, &int(7));
    let whole = apply(&if_else(&TRUE, &partly, &partly), &int(2));
    let sheet = [attribute(2, 1), node(0), rule(0, 0, &whole), end()].concat();
    let question = |parameter: &[u8]| of(&node_literal(0), 0, parameter);
    assert_eq!(
        fresh(&sheet, &question(&TRUE), MOST).fields(),
        [0, 0, 2, 9, 5, 1]
    );
    assert_eq!(
        fresh(&sheet, &question(&FALSE), MOST).fields(),
        [0, 0, 2, 5, 5, 1]
    );
}

#[test]
fn an_earlier_commands_fault_comes_first() {
    let ill_typed = [attribute(0, 0), node(0), rule(0, 0, &TRUE), vec![0x52, 0]];
    assert_eq!(refused(&ill_typed.concat()), (7, 5));
    let malformed = [attribute(0, 0), node(0), rule(0, 0, &[0x20]), vec![0xFF]];
    assert_eq!(refused(&malformed.concat()), (6, 5));
}

#[test]
fn stop_8_the_first_pair_without_definition() {
    let pairs = [
        attribute(0, 0),
        attribute(0, 0),
        node(0),
        node(1),
        node(2),
        figure(0, 0, 0),
        figure(0, 1, 0),
        figure(2, 0, 0),
        rule(1, 0, &UNIT),
        end(),
    ];
    assert_eq!(refused(&pairs.concat()), (8, 33));
    let last = [
        attribute(0, 0).repeat(32),
        node(0).repeat(1_023),
        node(1),
        (0..32).flat_map(|number| rule(0, number, &UNIT)).collect(),
        (0..31).flat_map(|number| rule(1, number, &UNIT)).collect(),
        end(),
    ];
    assert_eq!(refused(&last.concat()), (8, 1_023 * 32 + 31));
}

#[test]
fn stop_8_names_the_lowest_attribute_and_then_the_lowest_node() {
    // Three nodes of kinds 0 to 2 and three attributes; the pairs that are no gaps have figures.
    let place_with = |gaps: &[(u16, u8)]| {
        let pairs = (0..3).flat_map(|node| (0..3).map(move |attribute| (node, attribute)));
        let defined = pairs.filter(|pair| !gaps.contains(pair));
        let figures = defined.flat_map(|(node, attribute)| figure(node, attribute, 0));
        let sheet = [
            attribute(0, 0).repeat(3),
            node(0),
            node(1),
            node(2),
            figures.collect(),
            end(),
        ];
        refused(&sheet.concat())
    };
    assert_eq!(place_with(&[(0, 1), (1, 0)]), (8, 32));
    assert_eq!(place_with(&[(0, 2), (1, 1), (2, 0)]), (8, 64));
    assert_eq!(place_with(&[(0, 2), (1, 1), (2, 1)]), (8, 33));
    assert_eq!(place_with(&[(0, 0), (0, 2), (2, 0)]), (8, 0));
    assert_eq!(place_with(&[(2, 2)]), (8, 66));
}

#[test]
fn a_figure_goes_before_a_rule_and_a_rule_needs_no_node() {
    let sheet = [
        attribute(2, 0),
        node(0),
        figure(0, 0, 7),
        rule(0, 0, &int(8)),
        rule(15, 0, &of(&THIS, 0, &UNIT)),
        end(),
    ]
    .concat();
    let given = fresh(&sheet, &of(&node_literal(0), 0, &UNIT), MOST);
    assert_eq!(given.fields(), [0, 0, 2, 7, 1, 1]);
    let checked = [attribute(2, 0), rule(15, 0, &UNIT), end()].concat();
    assert_eq!(refused(&checked), (7, 3));
}

/// The answer with a lent store; every byte stays.
fn with_store(store: &[u8], kept: u64, question: &[u8], budget: u64) -> Answer {
    let mut lent = store.to_vec();
    let given = ask(&sheet_l(), &mut lent, kept, question, budget);
    assert_eq!(lent, store);
    given
}

#[test]
fn stop_9_the_stores_shape() {
    let bad: [(usize, u64); 8] = [
        (1, 0),
        (11, 0),
        (13, 1),
        (12_289, 0),
        (12_300, 0),
        (0, 1),
        (24, 3),
        (12_288, 1_025),
    ];
    for (length, kept) in bad {
        let given = with_store(&vec![0; length], kept, &[], u64::MAX);
        assert_eq!(given.fields(), [9, 0, 0, 0, 0, kept as i64], "{length}");
    }
    let given = with_store(&[0; 12], u64::MAX, &UNIT, 0);
    assert_eq!(given.fields(), [9, 0, 0, 0, 0, -1]);
    for capacity in [0, 1, 1_023, 1_024] {
        let given = with_store(&vec![0xFF; 12 * capacity], 0, &UNIT, 0);
        assert_eq!(given.fields(), [0, 0, 0, 0, 0, 0]);
    }
}

#[test]
fn stop_10_the_first_faulty_entry() {
    let good = entry(0, OWN, INT_TYPE, 0, 5);
    let bad = [
        entry(3, OWN, INT_TYPE, 0, 5),
        entry(65_535, OWN, INT_TYPE, 0, 5),
        entry(1, 3, INT_TYPE, 0, 5),
        entry(1, OWN, INT_TYPE, 1, 5),
        entry(1, UP, NODE_TYPE, 0, 3),
        entry(1, UP, NODE_TYPE, 0, -1),
        entry(0, OWN, INT_TYPE, 0, 6),
        entry(1, OWN, NODE_TYPE, 0, 0),
        entry(1, OWN, 4, 0, 5),
    ];
    for bad in &bad {
        let store = [&good, bad, bad, &good].map(|entry| &entry[..]).concat();
        let given = with_store(&store, 4, &[], u64::MAX);
        assert_eq!(given.fields(), [10, 1, 0, 0, 0, 4], "{bad:?}");
        // What is not kept is not looked at.
        let given = with_store(&store, 1, &UNIT, 0);
        assert_eq!(given.fields(), [0, 0, 0, 0, 0, 1]);
    }
}

#[test]
fn stop_10_looks_at_values_of_every_type() {
    let sheet = [
        attribute(0, 1),
        attribute(1, 0),
        attribute(2, 3),
        attribute(3, 2),
        node(0),
        figure(0, 0, 0),
        figure(0, 1, 0),
        figure(0, 2, 0),
        figure(0, 3, 0),
        end(),
    ]
    .concat();
    let number = |entry: Vec<u8>| ask(&sheet, &mut entry.clone(), 1, &UNIT, 0).number;
    assert_eq!(number(entry(0, 0, UNIT_TYPE, 1, 0)), 0);
    assert_eq!(number(entry(0, 0, UNIT_TYPE, 2, 0)), 10);
    assert_eq!(number(entry(0, 0, UNIT_TYPE, 1, 1)), 10);
    assert_eq!(number(entry(0, 1, BOOL_TYPE, 0, 1)), 0);
    assert_eq!(number(entry(0, 1, BOOL_TYPE, 0, 256)), 10);
    assert_eq!(number(entry(0, 2, INT_TYPE, 65_535, -1)), 0);
    assert_eq!(number(entry(0, 2, INT_TYPE, 1, 0)), 10);
    assert_eq!(number(entry(0, 3, NODE_TYPE, i32::MIN, 0)), 0);
    assert_eq!(number(entry(0, 3, NODE_TYPE, 0, 65_535)), 0);
    assert_eq!(number(entry(0, 3, NODE_TYPE, 0, 0x0001_FFFF)), 10);
}

#[test]
fn stop_11_the_budget() {
    for budget in [1_000_001, u64::MAX] {
        let given = with_store(&[0xEE; 24], 0, &[], budget);
        assert_eq!(given.fields(), [11, 0, 0, 0, 0, 0]);
    }
    assert_eq!(with_store(&[0xEE; 24], 0, &UNIT, MOST).number, 0);
}

#[test]
fn stop_12_the_questions_form() {
    let bad: [&[u8]; 10] = [
        &[],
        &[0x30],
        &[0x31],
        &[0x10, 0x10],
        &[0x13, 3, 0],
        &[0x14, 6],
        &[0x22, 3, 0x13, 0, 0, 0x10],
        &[0x22, 1, 0x30, 0x10],
        &[0x11, 2],
        &[0x5A],
    ];
    for question in bad {
        let given = with_store(&[0xEE; 24], 0, question, 9);
        assert_eq!(given.fields(), [12, 0, 0, 0, 0, 0], "{question:?}");
    }
    let given = with_store(&[0xEE; 24], 0, &nested_unit(64), MOST);
    assert_eq!(given.fields(), [12, 0, 0, 0, 0, 0]);
    let given = with_store(&[0xEE; 24], 0, &nested_unit(63), MOST);
    assert_eq!(given.fields(), [0, 0, 0, 0, 63, 0]);
}

#[test]
fn stop_13_the_questions_type() {
    let bad = [
        function(0),
        apply(&function(0), &int(4)),
        apply(&function(3), &int(4)),
        if_else(&UNIT, &UNIT, &UNIT),
        of(&int(0), OWN, &UNIT),
        of(&node_literal(0), OWN, &int(0)),
    ];
    for question in bad {
        let given = with_store(&[0xEE; 24], 0, &question, 9);
        assert_eq!(given.fields(), [13, 0, 0, 0, 0, 0], "{question:?}");
    }
}

#[test]
fn stop_14_goes_before_15_and_16() {
    let given = fresh(&sheet_l(), &of(&NULL, OWN, &UNIT), 0);
    assert_eq!(given.fields(), [14, 0, 0, 0, 0, 0]);
    // 64 forms, then an attribute of null: attribute 0 of p is IF le(p)(1) THEN null's attribute ELSE that of p - 1.
    let at_null = of(&NULL, 0, &PARAMETER);
    let further = of(&THIS, 0, &binary(5, &PARAMETER, &int(1)));
    let expr = if_else(&binary(0, &PARAMETER, &int(1)), &at_null, &further);
    let sheet = [attribute(2, 2), node(0), rule(0, 0, &expr), end()].concat();
    let steps = 64 * 4 + 63 * 2;
    let question = of(&node_literal(0), 0, &int(64));
    for budget in [steps, steps + 1, MOST] {
        let given = fresh(&sheet, &question, budget);
        assert_eq!(given.fields(), [14, 0, 0, 0, steps as i64, 0]);
    }
    let given = fresh(&sheet, &question, steps - 1);
    assert_eq!(given.fields(), [15, 0, 0, 0, steps as i64 - 1, 0]);
    let given = fresh(&sheet, &of(&node_literal(0), 0, &int(65)), MOST);
    assert_eq!(given.fields(), [16, 0, 0, 0, 64 * 6, 0]);
}

#[test]
fn stop_15_is_due_at_each_counted_step() {
    let conditional = if_else(&TRUE, &UNIT, &UNIT);
    let applied = apply(&function(3), &TRUE);
    let attribute = of(&node_literal(0), OWN, &UNIT);
    for question in [conditional, applied, attribute] {
        let given = fresh(&sheet_l(), &question, 0);
        assert_eq!(given.fields(), [15, 0, 0, 0, 0, 0], "{question:?}");
        assert_eq!(fresh(&sheet_l(), &question, 1).number, 0);
    }
}

#[test]
fn a_wrong_store_is_believed() {
    let mut store = [entry(1, DIAL, INT_TYPE, 0, -9), vec![0xEE; 12]].concat();
    let given = ask(&sheet_l(), &mut store, 1, &d(), MOST);
    assert_eq!(given.fields(), [0, 0, 2, -9, 1, 1]);
    let given = ask(&sheet_l(), &mut store, 1, &l10(), MOST);
    assert_eq!(given.fields(), [14, 0, 0, 0, 1, 2]);
    assert_eq!(
        store,
        [
            entry(1, DIAL, INT_TYPE, 0, -9),
            entry(0, UP, NODE_TYPE, 0, 65_535)
        ]
        .concat()
    );
}

#[test]
fn answers_of_each_base_type() {
    let sheet = sheet_l();
    let given = |question: &[u8]| fresh(&sheet, question, MOST);
    assert_eq!(given(&UNIT).fields(), [0, 0, 0, 0, 0, 0]);
    assert_eq!(given(&TRUE).fields(), [0, 0, 1, 1, 0, 0]);
    assert_eq!(given(&FALSE).fields(), [0, 0, 1, 0, 0, 0]);
    assert_eq!(
        given(&int(i32::MIN)).fields(),
        [0, 0, 2, -2_147_483_648, 0, 0]
    );
    assert_eq!(given(&node_literal(2)).fields(), [0, 0, 3, 2, 0, 0]);
    assert_eq!(given(&NULL).fields(), [0, 0, 3, 65_535, 0, 0]);
}

#[test]
fn the_deepest_nesting_fits_the_stack() {
    let next = of(&THIS, 0, &binary(ADD, &PARAMETER, &int(1)));
    let nots = (0..81).fold(next, |inner, _| apply(&function(NOT), &inner));
    assert_eq!(nots.len(), 256);
    let sheet = [attribute(1, 2), node(0), rule(0, 0, &nots), end()].concat();
    let question = of(&node_literal(0), 0, &int(0));
    let given = fresh(&sheet, &question, MOST);
    assert_eq!(given.fields(), [16, 0, 0, 0, 3 * 64, 0]);
}

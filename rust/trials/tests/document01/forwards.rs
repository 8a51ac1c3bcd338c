//! Forwards (document 02, F-7): "where a pair has neither figure nor rule and its kind has a forward f, σ(n, a, v) is attribute a of f with parameter
//! v, all by the ordinary steps", and the stops of the command 0x46.

use crate::ask;
use crate::common::*;
use oracle::plain::Ending;
use oracle::values::Value;
use trials::as_rules;
use trials::written_out::AS_RULES;
use trials::Call;

/// A question with its answer: number, type and value, the steps, and what is kept on the way where there is room for it.
struct Case {
    sheet: Vec<u8>,
    question: Vec<u8>,
    number: i64,
    value: (i64, i64),
    steps: u64,
    kept: i64,
}

/// A case with a value of Int.
fn int_case(sheet: &[u8], question: &[u8], value: i64, steps: u64, kept: i64) -> Case {
    Case {
        sheet: sheet.to_vec(),
        question: question.to_vec(),
        number: 0,
        value: (2, value),
        steps,
        kept,
    }
}

/// A case with a stop.
fn stop_case(sheet: &[u8], question: &[u8], number: i64, steps: u64, kept: i64) -> Case {
    Case {
        number,
        value: (0, 0),
        ..int_case(sheet, question, 0, steps, kept)
    }
}

/// An attribute of a node, without parameter.
fn asked(node: u16, attribute: u8) -> Vec<u8> {
    of(&node_literal(node), attribute, &UNIT)
}

/// Every question of sheet LF.
fn of_lf() -> Vec<Case> {
    let lf = &sheet_lf();
    let node_case = |node, value| Case {
        value: (3, value),
        ..int_case(lf, &asked(node, UP), 0, 1, 1)
    };
    let int_case = |node, attribute, value, steps, kept| {
        int_case(lf, &asked(node, attribute), value, steps, kept)
    };
    vec![
        node_case(0, 65_535),
        node_case(1, 0),
        node_case(2, 0),
        node_case(3, 1),
        int_case(0, OWN, 700, 1, 1),
        int_case(1, OWN, 0, 1, 1),
        int_case(2, OWN, 811, 1, 1),
        // Own of 3, up of 3, own of 1.
        int_case(3, OWN, 0, 3, 3),
        int_case(0, DIAL, 700, 2, 2),
        int_case(1, DIAL, 700, 8, 5),
        int_case(2, DIAL, 811, 6, 2),
        // Dial of 3, up of 3, and the eight of dial of 1.
        int_case(3, DIAL, 700, 10, 7),
    ]
}

/// An Int attribute 0 and a Node attribute 1. Each node has a kind of its own with a forward, and its attribute 1 leads to the node that stands in
/// its place. The first so many have a figure for attribute 0.
fn leading(nodes: &[u16], figures: u16, forwards: impl Fn(u16) -> Vec<u8>) -> Vec<u8> {
    let places = || (0..).zip(nodes.iter().copied());
    [
        attribute(INT_TYPE, UNIT_TYPE),
        attribute(NODE_TYPE, UNIT_TYPE),
        places()
            .flat_map(|(number, _)| node(number as u8))
            .collect(),
        places()
            .flat_map(|(number, to)| figure(number, 1, to.into()))
            .collect(),
        (0..figures)
            .flat_map(|number| figure(number, 0, 5))
            .collect(),
        places()
            .flat_map(|(number, to)| forward(number as u8, &forwards(to)))
            .collect(),
        end(),
    ]
    .concat()
}

/// Attribute 1 of this node.
fn next() -> Vec<u8> {
    of(&THIS, 1, &UNIT)
}

/// Ways over several kinds: to a figure, to null, and back, by literals and by attribute 1.
fn over_nodes() -> Vec<Case> {
    const NULL_NUMBER: u16 = 65_535;
    let question = &asked(3, 0);
    let both = |nodes: &[u16], figures| {
        let by_literals = leading(nodes, figures, node_literal);
        let by_attributes = leading(nodes, figures, |_| next());
        [(by_literals, 0), (by_attributes, 1)]
    };
    let mut cases = Vec::new();
    // Three hops to node 0.
    for (sheet, each) in both(&[NULL_NUMBER, 0, 1, 2], 1) {
        let more = 3 * each;
        cases.push(int_case(&sheet, question, 5, 4 + more, 4 + more as i64));
    }
    // One hop, from three nodes that meet at node 0.
    for (sheet, each) in both(&[NULL_NUMBER, 0, 0, 0], 1) {
        cases.push(int_case(&sheet, question, 5, 2 + each, 2 + each as i64));
    }
    // Node 0 leads to null: what is finished is attribute 1 of each.
    for (sheet, each) in both(&[NULL_NUMBER, 0, 1, 2], 0) {
        let more = 4 * each;
        cases.push(stop_case(&sheet, question, 14, 4 + more, more as i64));
    }
    // Back to the same node, to one of two, of three and of four, and into a circle of two that the node is not in.
    let circles: [(&[u16], u64); 5] = [
        (&[0, 0, 0, 3], 1),
        (&[0, 0, 3, 2], 2),
        (&[0, 3, 1, 2], 3),
        (&[3, 0, 1, 2], 4),
        (&[1, 0, 0, 1], 3),
    ];
    for (nodes, forms) in circles {
        for (sheet, each) in both(nodes, 0) {
            let more = forms * each;
            cases.push(stop_case(&sheet, question, 20, forms + more, more as i64));
        }
    }
    cases
}

/// A node whose attribute 1 is forwarded by itself: what its forward needs is what it defines.
fn through_its_own_attribute() -> Vec<Case> {
    let sheet = [
        attribute(INT_TYPE, UNIT_TYPE),
        attribute(NODE_TYPE, UNIT_TYPE),
        node(0),
        forward(0, &next()),
        end(),
    ]
    .concat();
    vec![
        stop_case(&sheet, &asked(0, 1), 20, 1, 0),
        stop_case(&sheet, &asked(0, 0), 20, 2, 0),
    ]
}

/// A forward with steps of its own, to nodes that have a rule for attribute 0: it leads to attribute 1 of this node where attribute 2 is at most 3, and
/// else to node 2.
fn choosing() -> Vec<u8> {
    let least = binary(LE, &of(&THIS, 2, &UNIT), &int(3));
    [
        attribute(INT_TYPE, UNIT_TYPE),
        attribute(NODE_TYPE, UNIT_TYPE),
        attribute(INT_TYPE, UNIT_TYPE),
        node(1),
        node(1),
        node(0),
        node(0),
        figure(0, 1, 3),
        figure(0, 2, 3),
        figure(1, 1, 3),
        figure(1, 2, 4),
        (2..4).flat_map(|number| figure(number, 1, 0)).collect(),
        figure(2, 2, 40),
        figure(3, 2, 30),
        forward(1, &if_else(&least, &next(), &node_literal(2))),
        rule(0, 0, &binary(ADD, &of(&THIS, 2, &UNIT), &int(2))),
        end(),
    ]
    .concat()
}

/// What a forward's expression takes is counted with the rest.
fn by_choice() -> Vec<Case> {
    // Attribute 0 of 0, 2 of 0, le's two, IF, 1 of 0; attribute 0 of 3, 2 of 3, add's two. Where the IF chooses node 2, attribute 1 is not due.
    let sheet = &choosing();
    vec![
        int_case(sheet, &asked(0, 0), 32, 10, 5),
        int_case(sheet, &asked(1, 0), 42, 9, 4),
    ]
}

fn all() -> Vec<Case> {
    [
        of_lf(),
        over_nodes(),
        through_its_own_attribute(),
        by_choice(),
        handed_on(),
    ]
    .into_iter()
    .flatten()
    .collect()
}

/// Node 2 forwards to node 1 and that to node 0, whose attributes are their parameters, one for each type.
fn echoes() -> Vec<u8> {
    let types = [UNIT_TYPE, BOOL_TYPE, INT_TYPE, NODE_TYPE];
    [
        types.map(|typ| attribute(typ, typ)).concat(),
        node(0),
        node(1),
        node(2),
        types.map(|typ| rule(0, typ, &PARAMETER)).concat(),
        forward(2, &node_literal(1)),
        forward(1, &node_literal(0)),
        end(),
    ]
    .concat()
}

/// Parameters of every type, with the four-byte form of each.
fn parameters() -> Vec<(u8, Vec<u8>, i32)> {
    vec![
        (UNIT_TYPE, UNIT.to_vec(), 0),
        (BOOL_TYPE, FALSE.to_vec(), 0),
        (BOOL_TYPE, TRUE.to_vec(), 1),
        (INT_TYPE, int(0), 0),
        (INT_TYPE, int(-7), -7),
        (INT_TYPE, int(i32::MAX), i32::MAX),
        (NODE_TYPE, node_literal(0), 0),
        (NODE_TYPE, node_literal(2), 2),
        (NODE_TYPE, NULL.to_vec(), 65_535),
    ]
}

fn handed_on() -> Vec<Case> {
    let case = |(typ, parameter, word): (u8, Vec<u8>, i32)| {
        let question = of(&node_literal(2), typ, &parameter);
        Case {
            value: (typ.into(), word.into()),
            ..int_case(&echoes(), &question, 0, 3, 3)
        }
    };
    parameters().into_iter().map(case).collect()
}

#[test]
fn every_budget_that_lets_it_come_so_far_brings_its_ending() {
    for Case {
        sheet,
        question,
        number,
        value: (typ, value),
        steps,
        kept,
    } in all()
    {
        for budget in [steps, steps + 1, MOST] {
            let given = fresh(&sheet, &question, budget);
            let ended = [number, 0, typ, value, steps as i64, kept];
            assert_eq!(given.fields(), ended, "{sheet:?} {question:?}");
        }
        for budget in 0..steps {
            let given = fresh(&sheet, &question, budget);
            assert_eq!(given.fields()[..5], [15, 0, 0, 0, budget as i64]);
            assert!(given.kept <= kept);
        }
        // With room for nothing each step is taken as before: nothing is due twice but figures.
        let given = Lent::new(0).ask(&sheet, &question, MOST);
        assert_eq!(given.fields(), [number, 0, typ, value, steps as i64, 0]);
    }
}

#[test]
fn plain_saiga_is_over_the_wider_context() {
    for Case {
        sheet,
        question,
        number,
        value,
        steps,
        ..
    } in all()
    {
        let watched = plain_watched(&sheet, &question, 10_000);
        let circle = watched.circle.map(|circle| circle.steps);
        match watched.ending {
            Ending::Value(plain, n) => {
                let typ = plain.base().expect("a base value").code();
                assert_eq!((i64::from(typ), plain.number()), value);
                assert_eq!((number, n, circle), (0, steps, None));
            }
            Ending::Null(n) => assert_eq!((number, n, circle), (14, steps, None)),
            Ending::Running(_) => assert_eq!((number, circle), (20, Some(steps))),
            Ending::Overflow(_) => panic!("{sheet:?} {question:?}"),
        }
    }
}

#[test]
fn the_figures_of_dial_of_3_are_kept_the_inner_ones_first() {
    let entries = [
        entry(3, UP, NODE_TYPE, 0, 1),
        entry(1, OWN, INT_TYPE, 0, 0),
        entry(1, UP, NODE_TYPE, 0, 0),
        entry(0, OWN, INT_TYPE, 0, 700),
        entry(0, DIAL, INT_TYPE, 0, 700),
        entry(1, DIAL, INT_TYPE, 0, 700),
        entry(3, DIAL, INT_TYPE, 0, 700),
    ];
    // A full store keeps the first of them, and drops none.
    for capacity in 0..=8 {
        let mut lent = Lent::new(capacity);
        let given = lent.ask(&sheet_lf(), &asked(3, DIAL), MOST);
        let kept = capacity.min(entries.len());
        assert_eq!(given.fields(), [0, 0, 2, 700, 10, kept as i64]);
        let left = [entries[..kept].concat(), vec![0xEE; 12 * (capacity - kept)]];
        assert_eq!(lent.store, left.concat(), "{capacity}");
    }
    // With one step fewer, what is open is not kept: neither dial of 3 nor that of 1.
    let kept = [0, 0, 1, 1, 2, 2, 2, 2, 3, 3, 7];
    for (budget, kept) in (0..).zip(kept) {
        let mut lent = Lent::new(8);
        let given = lent.ask(&sheet_lf(), &asked(3, DIAL), budget);
        assert_eq!((given.steps, given.kept), (budget as i64, kept));
        assert_eq!(
            lent.store[..12 * kept as usize],
            entries[..kept as usize].concat()
        );
        assert!(lent.store[12 * kept as usize..]
            .iter()
            .all(|byte| *byte == 0xEE));
    }
}

#[test]
fn a_full_store_keeps_the_inner_one_and_the_outer_is_worked_out_again() {
    // There is room for up of 3 and own of 1, and none for own of 3.
    let mut lent = Lent::new(2);
    for _ in 0..2 {
        let given = lent.ask(&sheet_lf(), &asked(3, OWN), MOST);
        assert_eq!(given.fields(), [0, 0, 2, 0, 3, 2]);
    }
    let inner = [entry(3, UP, NODE_TYPE, 0, 1), entry(1, OWN, INT_TYPE, 0, 0)];
    assert_eq!(lent.store, inner.concat());
}

#[test]
fn later_questions_find_what_is_kept() {
    let mut lent = Lent::new(1_024);
    let mut steps = |node, attribute| {
        let given = lent.ask(&sheet_lf(), &asked(node, attribute), MOST);
        (given.number, given.value, given.steps, given.kept)
    };
    assert_eq!(steps(1, DIAL), (0, 700, 8, 5));
    // Dial of 3, up of 3 and dial of 1, which is kept; then dial of 3 is.
    assert_eq!(steps(3, DIAL), (0, 700, 3, 7));
    assert_eq!(steps(3, DIAL), (0, 700, 1, 7));
    // Up of 3 and own of 1 are kept already.
    assert_eq!(steps(3, OWN), (0, 0, 3, 8));
    assert_eq!(steps(3, OWN), (0, 0, 1, 8));
}

#[test]
fn the_attribute_is_tallied_for_each_node_on_the_way() {
    let tally = |rows: &[(u8, u64)]| {
        let mut tally = [0; 34];
        for (row, steps) in rows {
            tally[usize::from(*row)] = *steps;
        }
        tally
    };
    let given = fresh(&sheet_lf(), &asked(3, OWN), MOST);
    assert_eq!(given.tally, tally(&[(UP, 1), (OWN, 2)]));
    let given = fresh(&sheet_lf(), &asked(3, DIAL), MOST);
    let dial = tally(&[(UP, 2), (OWN, 2), (DIAL, 3), (32, 2), (33, 1)]);
    assert_eq!(given.tally, dial);
    // Before the inner one, and with it.
    let given = fresh(&sheet_lf(), &asked(3, DIAL), 2);
    assert_eq!(given.tally, tally(&[(UP, 1), (DIAL, 1)]));
    let given = fresh(&sheet_lf(), &asked(3, DIAL), 3);
    assert_eq!(given.tally, tally(&[(UP, 1), (DIAL, 2)]));
    // The forward's own steps have their rows.
    let given = fresh(&choosing(), &asked(0, 0), MOST);
    let chosen = tally(&[(0, 2), (1, 1), (2, 2), (32, 4), (33, 1)]);
    assert_eq!(given.tally, chosen);
    // On null the step of the forwarding node is counted, and that of null is not; on a circle likewise.
    let sheet = leading(&[0], 0, |_| NULL.to_vec());
    assert_eq!(fresh(&sheet, &asked(0, 0), MOST).tally, tally(&[(0, 1)]));
    let sheet = leading(&[0], 0, node_literal);
    assert_eq!(fresh(&sheet, &asked(0, 0), MOST).tally, tally(&[(0, 1)]));
}

#[test]
fn the_parameter_is_handed_on_and_each_has_its_own_entries() {
    for (typ, parameter, word) in parameters() {
        let question = of(&node_literal(2), typ, &parameter);
        let mut lent = Lent::new(4);
        let given = lent.ask(&echoes(), &question, MOST);
        assert_eq!(given.fields(), [0, 0, typ.into(), word.into(), 3, 3]);
        let entries = [0, 1, 2].map(|number| entry(number, typ, typ, word, word));
        assert_eq!(lent.store[..36], entries.concat(), "{parameter:?}");
        assert!(lent.store[36..].iter().all(|byte| *byte == 0xEE));
    }
    // Of two parameters of one attribute each is asked on its way, and kept.
    let mut lent = Lent::new(1_024);
    let of_int = |value| of(&node_literal(2), INT_TYPE, &int(value));
    let given = lent.ask(&echoes(), &binary(ADD, &of_int(3), &of_int(9)), MOST);
    assert_eq!(given.fields(), [0, 0, 2, 12, 8, 6]);
    let given = lent.ask(&echoes(), &binary(SUBTRACT, &of_int(3), &of_int(9)), MOST);
    assert_eq!(given.fields(), [0, 0, 2, -6, 4, 6]);
}

#[test]
fn a_parameter_is_stepped_once_before_the_first_hop() {
    let sum = binary(ADD, &int(2), &int(3));
    let given = fresh(&echoes(), &of(&node_literal(2), INT_TYPE, &sum), MOST);
    assert_eq!(given.fields(), [0, 0, 2, 5, 2 + 3, 3]);
}

/// Attribute 0 is 3 of node 0. Nodes 1 to 3 are of kind 1, which has a forward to node 0; where it is said, it has a rule too, that is 2, and node 1 a
/// figure, that is 1.
fn ranked(with_rule: bool, with_figure: bool) -> Vec<u8> {
    let when = |said: bool, command: Vec<u8>| if said { command } else { Vec::new() };
    [
        attribute(INT_TYPE, BOOL_TYPE),
        node(0),
        node(1).repeat(3),
        figure(0, 0, 3),
        when(with_figure, figure(1, 0, 1)),
        forward(1, &node_literal(0)),
        when(with_rule, rule(1, 0, &int(2))),
        end(),
    ]
    .concat()
}

#[test]
fn a_figure_goes_before_a_rule_and_a_rule_before_a_forward() {
    let by_figure = (1, 1, 1);
    let by_rule = (2, 1, 1);
    let by_forward = (3, 2, 2);
    for (with_rule, with_figure, node_1, others) in [
        (false, false, by_forward, by_forward),
        (false, true, by_figure, by_forward),
        (true, false, by_rule, by_rule),
        (true, true, by_figure, by_rule),
    ] {
        let sheet = ranked(with_rule, with_figure);
        for (number, (value, steps, kept)) in [(1, node_1), (2, others), (3, others)] {
            let question = of(&node_literal(number), 0, &TRUE);
            let given = fresh(&sheet, &question, MOST);
            assert_eq!(given.fields(), [0, 0, 2, value, steps, kept], "{number}");
        }
    }
}

#[test]
fn rules_and_forwards_stand_in_any_order() {
    let rules = [rule(0, 0, &int(5)), rule(1, 1, &THIS)];
    let forwards = [forward(1, &node_literal(0)), forward(0, &THIS)];
    let [r, s] = &rules;
    let [f, g] = &forwards;
    for order in [
        [f, g, r, s],
        [r, s, f, g],
        [r, f, s, g],
        [f, r, g, s],
        [g, s, r, f],
    ] {
        let sheet = [
            attribute(INT_TYPE, UNIT_TYPE),
            attribute(NODE_TYPE, UNIT_TYPE),
            node(0),
            node(1),
            order.map(|command| &command[..]).concat(),
            end(),
        ]
        .concat();
        let given = fresh(&sheet, &asked(1, 0), MOST);
        assert_eq!(given.fields(), [0, 0, 2, 5, 2, 2]);
        let given = fresh(&sheet, &asked(1, 1), MOST);
        assert_eq!(given.fields(), [0, 0, 3, 1, 1, 1]);
        let given = fresh(&sheet, &asked(0, 1), MOST);
        assert_eq!(given.fields(), [20, 0, 0, 0, 1, 0]);
    }
}

#[test]
fn null_is_met_at_the_inner_attribute() {
    // Its parameter was a value before; the form of the node that forwards stands around it and is left open.
    for (sheet, steps, kept) in [
        (leading(&[65_535], 0, |_| NULL.to_vec()), 1, 0),
        (leading(&[65_535], 0, |_| next()), 2, 1),
        (leading(&[65_535, 0], 0, |_| next()), 2, 1),
    ] {
        for budget in [steps, steps + 1, MOST] {
            let given = fresh(&sheet, &asked(0, 0), budget);
            assert_eq!(given.fields(), [14, 0, 0, 0, steps as i64, kept]);
        }
        let given = fresh(&sheet, &asked(0, 0), steps - 1);
        assert_eq!(given.fields()[..5], [15, 0, 0, 0, steps as i64 - 1]);
    }
    // A second question meets it again: of the forwarding node nothing is kept.
    let mut lent = Lent::new(1_024);
    for _ in 0..2 {
        let given = lent.ask(&leading(&[65_535], 0, |_| next()), &asked(0, 0), MOST);
        assert_eq!(given.fields(), [14, 0, 0, 0, 2, 1]);
    }
}

#[test]
fn a_figure_or_rule_ends_a_circle_of_forwards() {
    // Of three nodes in a ring, node 0 has a figure, or its kind a rule.
    let ring = |figures: &[u8], rules: &[u8]| {
        [
            attribute(INT_TYPE, UNIT_TYPE),
            attribute(NODE_TYPE, UNIT_TYPE),
            node(0),
            node(1).repeat(2),
            (0..3)
                .flat_map(|number| figure(number, 1, (i32::from(number) + 1) % 3))
                .collect(),
            figures.to_vec(),
            forward(0, &next()),
            rules.to_vec(),
            forward(1, &next()),
            end(),
        ]
        .concat()
    };
    let given = fresh(&ring(&[], &[]), &asked(1, 0), MOST);
    assert_eq!(given.fields(), [20, 0, 0, 0, 6, 3]);
    for sheet in [ring(&figure(0, 0, 5), &[]), ring(&[], &rule(0, 0, &int(5)))] {
        let given = fresh(&sheet, &asked(1, 0), MOST);
        assert_eq!(given.fields(), [0, 0, 2, 5, 5, 5]);
    }
    // A rule that leads on closes the circle with the forwards.
    let onward = rule(0, 0, &of(&next(), 0, &UNIT));
    let given = fresh(&ring(&[], &onward), &asked(1, 0), MOST);
    assert_eq!(given.fields(), [20, 0, 0, 0, 6, 3]);
}

#[test]
fn another_parameter_is_another_occurrence_on_the_way() {
    // Node 1 forwards to node 0, whose attribute of true is that of node 1 of false, and of false it is 5.
    let back = of(&node_literal(1), 0, &apply(&function(NOT), &PARAMETER));
    let sheet = |rule_0: &[u8]| {
        [
            attribute(INT_TYPE, BOOL_TYPE),
            node(0),
            node(1),
            rule(0, 0, rule_0),
            forward(1, &node_literal(0)),
            end(),
        ]
        .concat()
    };
    let question = of(&node_literal(1), 0, &TRUE);
    let ends = sheet(&if_else(&PARAMETER, &back, &int(5)));
    let given = fresh(&ends, &question, MOST);
    assert_eq!(given.fields(), [0, 0, 2, 5, 7, 4]);
    // Without the end it comes back with true.
    let given = fresh(&sheet(&back), &question, MOST);
    assert_eq!(given.fields(), [20, 0, 0, 0, 6, 0]);
}

/// Nodes in a row, each of which leads to the one before. All but node 0, whose attribute 0 is 5, only forward.
fn row(nodes: u16) -> Vec<u8> {
    [
        attribute(INT_TYPE, UNIT_TYPE),
        attribute(NODE_TYPE, UNIT_TYPE),
        node(0),
        node(1).repeat(usize::from(nodes) - 1),
        figure(0, 0, 5),
        figure(0, 1, 65_535),
        (1..nodes)
            .flat_map(|number| figure(number, 1, i32::from(number) - 1))
            .collect(),
        forward(1, &next()),
        end(),
    ]
    .concat()
}

#[test]
fn each_hop_takes_one_of_the_64_forms() {
    let sheet = row(70);
    // 63 hops, and the figure of the 64th node inside them.
    let given = fresh(&sheet, &asked(63, 0), MOST);
    assert_eq!(given.fields(), [0, 0, 2, 5, 2 * 63 + 1, 2 * 63 + 1]);
    // Inside the 64th form, that of node 1, its attribute 1 is one too deep.
    for budget in [2 * 63 + 2, MOST] {
        let given = fresh(&sheet, &asked(64, 0), budget);
        assert_eq!(given.fields(), [16, 0, 0, 0, 2 * 63 + 1, 63]);
    }
    let given = fresh(&sheet, &asked(64, 0), 2 * 63 + 1);
    assert_eq!(given.fields(), [15, 0, 0, 0, 2 * 63 + 1, 63]);
    // With that kept, the inner AttrApp of the 64th hop is due: what it is due on is not kept, and then it is.
    let mut lent = Lent::new(1_024);
    lent.ask(&sheet, &asked(1, 1), MOST);
    let given = lent.ask(&sheet, &asked(64, 0), MOST);
    assert_eq!(given.fields(), [16, 0, 0, 0, 2 * 64, 64]);
    lent.ask(&sheet, &asked(0, 0), MOST);
    let given = lent.ask(&sheet, &asked(64, 0), MOST);
    assert_eq!(given.fields(), [0, 0, 2, 5, 2 * 64 + 1, 65 + 64]);
    // Plain Saiga has no depth.
    let ending = plain_ending(&sheet, &asked(69, 0), MOST);
    assert_eq!(ending, Ending::Value(Value::Int(5), 2 * 69 + 1));
}

#[test]
fn inside_64_forms_a_hop_to_null_is_14_to_what_is_open_20_and_to_what_is_new_16() {
    // Attribute 0 of p opens a form for each down to 1, whose node then is node 1: that forwards.
    let sheet = |f: &[u8]| {
        let less = of(&THIS, 0, &binary(SUBTRACT, &PARAMETER, &int(1)));
        let onward = of(&node_literal(1), 0, &PARAMETER);
        let down = if_else(&binary(LE, &PARAMETER, &int(1)), &onward, &less);
        [
            attribute(INT_TYPE, INT_TYPE),
            node(0),
            node(1),
            node(2),
            rule(0, 0, &down),
            rule(2, 0, &PARAMETER),
            forward(1, f),
            end(),
        ]
        .concat()
    };
    let question = of(&node_literal(0), 0, &int(63));
    // 62 of six steps, four of 1, and node 1's.
    let steps = 62 * 6 + 4 + 1;
    for (f, number) in [
        (NULL.to_vec(), 14),
        (THIS.to_vec(), 20),
        (node_literal(0), 20),
    ] {
        for budget in [steps, steps + 1, MOST] {
            let given = fresh(&sheet(&f), &question, budget);
            assert_eq!(given.fields(), [number, 0, 0, 0, steps as i64, 0]);
        }
    }
    let given = fresh(&sheet(&node_literal(2)), &question, MOST);
    assert_eq!(given.fields(), [16, 0, 0, 0, steps as i64, 0]);
    let given = fresh(&sheet(&node_literal(2)), &question, steps);
    assert_eq!(given.fields(), [15, 0, 0, 0, steps as i64, 0]);
    let less_deep = of(&node_literal(0), 0, &int(62));
    let given = fresh(&sheet(&node_literal(2)), &less_deep, MOST);
    assert_eq!(given.fields(), [0, 0, 2, 1, steps as i64 - 6 + 1, 64]);
}

#[test]
fn a_lent_figure_is_believed_on_the_way() {
    // Own of 1 is kept as 9; and up of 3 as node 2.
    let mut store = [entry(1, OWN, INT_TYPE, 0, 9), vec![0xEE; 24]].concat();
    let given = ask(&sheet_lf(), &mut store, 1, &asked(3, OWN), MOST);
    assert_eq!(given.fields(), [0, 0, 2, 9, 3, 3]);
    let mut store = [entry(3, UP, NODE_TYPE, 0, 2), vec![0xEE; 24]].concat();
    let given = ask(&sheet_lf(), &mut store, 1, &asked(3, OWN), MOST);
    assert_eq!(given.fields(), [0, 0, 2, 811, 3, 3]);
    // What is kept for the node that forwards goes before its forward.
    let mut store = entry(3, OWN, INT_TYPE, 0, 7);
    let given = ask(&sheet_lf(), &mut store, 1, &asked(3, OWN), MOST);
    assert_eq!(given.fields(), [0, 0, 2, 7, 1, 1]);
}

/// Sheet L with a node 3 of kind 2 and some commands among the rules, which begin at offset 112 then.
fn l_and_node_3(rules: &[u8]) -> Vec<u8> {
    l_with(&node(2), &figure(3, UP, 1), rules)
}

const AFTER_RULES: i64 = 112;

#[test]
fn stop_2_out_of_order() {
    let up = forward(2, &this_up());
    for after in [
        attribute(INT_TYPE, UNIT_TYPE),
        node(0),
        figure(3, OWN, 1),
        figure(3, UP, 1),
    ] {
        let sheet = l_and_node_3(&[up.clone(), after].concat());
        assert_eq!(refused(&sheet), (2, AFTER_RULES + up.len() as i64));
    }
    // Before a node, before a figure, and behind the end.
    let this = forward(0, &THIS);
    let sheet = [attribute(0, 0), this.clone(), node(0), end()].concat();
    assert_eq!(refused(&sheet), (2, 3 + 5));
    let sheet = [
        attribute(0, 0),
        node(0),
        this.clone(),
        figure(0, 0, 0),
        end(),
    ]
    .concat();
    assert_eq!(refused(&sheet), (2, 5 + 5));
    let sheet = [end(), this].concat();
    assert_eq!(refused(&sheet), (2, 1));
}

#[test]
fn stop_2_cut_commands_have_their_own_offset() {
    let sheet = sheet_lf();
    assert_eq!(sheet.len(), 121);
    let starts = [
        0, 3, 6, 9, 11, 13, 15, 17, 25, 33, 41, 49, 57, 65, 73, 82, 112, 120,
    ];
    for length in 0..sheet.len() {
        let place = starts.iter().rev().find(|start| **start <= length);
        let place = *place.expect("a command begins at 0");
        assert_eq!(refused(&sheet[..length]), (2, place as i64), "{length}");
    }
}

#[test]
fn stop_2_a_forward_cut_at_its_stated_length_good_or_bad() {
    let open = |cut: &[u8]| {
        let mut sheet = l_and_node_3(cut);
        sheet.pop();
        sheet
    };
    for length in [1u16, 2, 255, 256, 257, 65_535] {
        let [low, high] = length.to_le_bytes();
        let most = length.min(300) - 1;
        for (kind, present) in [(2, 0), (99, 0), (2, most), (99, most)] {
            let mut cut = vec![0x46, kind, low, high];
            cut.resize(4 + usize::from(present), 0x30);
            assert_eq!(refused(&open(&cut)), (2, AFTER_RULES), "{length} {present}");
        }
    }
    // A length of 0 cannot be cut past its two bytes: the kind is the first fault.
    assert_eq!(refused(&open(&[0x46, 99, 0, 0])), (4, AFTER_RULES));
    assert_eq!(refused(&open(&[0x46, 99, 0])), (2, AFTER_RULES));
    // A repeated one that is cut is cut.
    let cut = [&forward(2, &this_up())[..], &[0x46, 2, 4, 0, 0x30]].concat();
    assert_eq!(refused(&open(&cut)), (2, AFTER_RULES + 8));
}

#[test]
fn stop_4_a_kind_above_15_goes_before_length_and_form() {
    for kind in [16, 17, 255] {
        for expr in [&THIS[..], &[], &PARAMETER, &UNIT, &[0xFF], &[0x30; 300]] {
            let sheet = l_and_node_3(&forward(kind, expr));
            assert_eq!(refused(&sheet), (4, AFTER_RULES), "{kind} {expr:?}");
        }
    }
    // The second of no kind is no second.
    let sheet = l_and_node_3(&forward(16, &THIS).repeat(2));
    assert_eq!(refused(&sheet), (4, AFTER_RULES));
    let sheet = l_and_node_3(&[forward(2, &this_up()), forward(15, &THIS)].concat());
    assert_eq!(ask(&sheet, &mut [], 0, &UNIT, 0).number, 0);
}

#[test]
fn stop_5_a_second_forward_for_a_kind_equal_or_not_good_or_bad() {
    let first = forward(2, &this_up());
    for second in [
        &this_up()[..],
        &THIS,
        &[],
        &PARAMETER,
        &UNIT,
        &[0x20],
        &[0xFF],
        &[0x30; 300],
    ] {
        // Beside the first and after other rules and forwards.
        let second = forward(2, second);
        let sheet = l_and_node_3(&[&first[..], &second].concat());
        assert_eq!(refused(&sheet), (5, AFTER_RULES + 8), "{second:?}");
        let between = [rule(2, OWN, &int(1)), forward(0, &THIS)].concat();
        let sheet = l_and_node_3(&[&first[..], &between, &second].concat());
        let place = AFTER_RULES + 8 + between.len() as i64;
        assert_eq!(refused(&sheet), (5, place), "{second:?}");
    }
}

/// A Node expression of four bytes for each IF around an inner one.
fn nested(ifs: usize, inner: &[u8]) -> Vec<u8> {
    (0..ifs).fold(inner.to_vec(), |inner, _| if_else(&TRUE, &inner, &THIS))
}

#[test]
fn stop_6_length_and_form() {
    let undeclared_node = node_literal(4);
    let undeclared_attribute = of(&THIS, 3, &UNIT);
    let bad: [&[u8]; 17] = [
        &[],
        &[0x30, 0x30],
        &[0xFF],
        &[0x46],
        &[0x11, 2],
        &[0x13, 0],
        &[0x13, 0xFE, 0xFF],
        &[0x14, 6],
        &[0x20, 0x11, 1, 0x30],
        &[0x20, 0x11, 1, 0x30, 0x30, 0x30],
        &[0x22, 0, 0x30],
        &[0x22],
        &[0x30; 257],
        &[0x20; 256],
        &undeclared_node,
        &undeclared_attribute,
        &nested(64, &THIS),
    ];
    for expr in bad {
        let sheet = l_and_node_3(&forward(2, expr));
        assert_eq!(refused(&sheet), (6, AFTER_RULES), "{expr:?}");
    }
}

#[test]
fn stop_6_begins_at_257_bytes() {
    let sheet = |expr: &[u8]| l_and_node_3(&forward(2, expr));
    let longest = nested(63, &this_up());
    assert_eq!(longest.len(), 256);
    // Own of 3, 63 IFs, up of 3, own of 1.
    let given = fresh(&sheet(&longest), &asked(3, OWN), MOST);
    assert_eq!(given.fields(), [0, 0, 2, 0, 1 + 63 + 1 + 1, 3]);
    let longer = nested(64, &THIS);
    assert_eq!(longer.len(), 257);
    assert_eq!(refused(&sheet(&longer)), (6, AFTER_RULES));
}

#[test]
fn stop_6_the_parameter_anywhere_of_good_type_or_not() {
    // Attribute 3 is a Node with a Node parameter, 4 a Node with a Bool parameter. In a rule for one or the other these would have a type.
    let good = [
        PARAMETER.to_vec(),
        if_else(&TRUE, &PARAMETER, &THIS),
        if_else(&TRUE, &THIS, &PARAMETER),
        if_else(&PARAMETER, &THIS, &THIS),
        of(&PARAMETER, 0, &UNIT),
        of(&THIS, 0, &PARAMETER),
        of(&THIS, 3, &PARAMETER),
        of(&THIS, 4, &PARAMETER),
        of(&THIS, 4, &apply(&function(NOT), &PARAMETER)),
        if_else(&binary(LE, &PARAMETER, &int(1)), &THIS, &THIS),
        if_else(&binary(EQUAL, &int(1), &PARAMETER), &THIS, &THIS),
        nested(62, &of(&PARAMETER, 0, &UNIT)),
    ];
    let ill_typed = [
        if_else(&UNIT, &PARAMETER, &UNIT),
        if_else(&TRUE, &UNIT, &PARAMETER),
        apply(&PARAMETER, &PARAMETER),
        apply(&int(1), &PARAMETER),
        of(&int(1), 0, &PARAMETER),
        of(&PARAMETER, 0, &int(1)),
        binary(ADD, &TRUE, &PARAMETER),
        binary(ADD, &int(1), &PARAMETER),
        apply(&function(NOT), &PARAMETER),
    ];
    for expr in good.iter().chain(&ill_typed) {
        let sheet = [
            attribute(NODE_TYPE, UNIT_TYPE),
            attribute(INT_TYPE, UNIT_TYPE),
            attribute(INT_TYPE, UNIT_TYPE),
            attribute(NODE_TYPE, NODE_TYPE),
            attribute(NODE_TYPE, BOOL_TYPE),
            forward(2, expr),
            end(),
        ];
        assert_eq!(refused(&sheet.concat()), (6, 15), "{expr:?}");
    }
}

#[test]
fn stop_7_a_type_other_than_node() {
    let bad = [
        UNIT.to_vec(),
        TRUE.to_vec(),
        int(3),
        function(LE),
        function(NOT),
        apply(&function(2), &THIS),
        binary(2, &THIS, &THIS),
        of(&THIS, OWN, &UNIT),
        // Ill typed inside.
        of(&THIS, UP, &THIS),
        of(&int(1), UP, &UNIT),
        if_else(&THIS, &THIS, &THIS),
        if_else(&TRUE, &THIS, &UNIT),
        if_else(&TRUE, &UNIT, &THIS),
        apply(&THIS, &THIS),
        // Even where it would not be stepped.
        if_else(&TRUE, &THIS, &of(&THIS, UP, &int(1))),
    ];
    for expr in bad {
        let sheet = l_and_node_3(&forward(2, &expr));
        assert_eq!(refused(&sheet), (7, AFTER_RULES), "{expr:?}");
    }
}

#[test]
fn stop_8_is_for_pairs_whose_kind_has_no_forward() {
    // Three nodes of kinds 0 to 2 and three attributes without a figure or rule; the kinds that are named have forwards.
    let place_with = |kinds: &[u8], defined: &[(u16, u8)]| {
        [
            attribute(0, 0).repeat(3),
            node(0),
            node(1),
            node(2),
            defined
                .iter()
                .flat_map(|(node, attribute)| figure(*node, *attribute, 0))
                .collect(),
            kinds
                .iter()
                .flat_map(|kind| forward(*kind, &THIS))
                .collect(),
            end(),
        ]
        .concat()
    };
    assert_eq!(refused(&place_with(&[], &[])), (8, 0));
    assert_eq!(refused(&place_with(&[0], &[])), (8, 32));
    assert_eq!(refused(&place_with(&[1], &[])), (8, 0));
    assert_eq!(refused(&place_with(&[0, 1], &[])), (8, 64));
    assert_eq!(refused(&place_with(&[2, 0], &[])), (8, 32));
    // The lowest attribute, and among those the lowest node, of those that are left.
    assert_eq!(refused(&place_with(&[0], &[(1, 0)])), (8, 64));
    assert_eq!(refused(&place_with(&[1], &[(0, 0)])), (8, 64));
    assert_eq!(refused(&place_with(&[0], &[(1, 0), (2, 0)])), (8, 33));
    assert_eq!(
        refused(&place_with(&[1], &[(0, 0), (0, 1), (2, 0)])),
        (8, 65)
    );
    // The forward of a kind that no node has is no definition of any pair.
    assert_eq!(refused(&place_with(&[3, 15], &[])), (8, 0));
    let whole = place_with(&[0, 1, 2], &[]);
    assert_eq!(ask(&whole, &mut [], 0, &UNIT, 0).number, 0);
    // It is the pair's own kind that counts: kind 2's of sheet LF for a node of kind 3.
    let sheet = l_with(
        &[node(2), node(3)].concat(),
        &[figure(3, UP, 1), figure(4, UP, 1)].concat(),
        &forward(2, &this_up()),
    );
    assert_eq!(refused(&sheet), (8, 4 * 32 + i64::from(OWN)));
}

#[test]
fn forwards_without_attributes_nodes_or_anything_to_forward_are_checked() {
    let accepted = |sheet: &[u8]| ask(sheet, &mut [], 0, &UNIT, 0).number == 0;
    let bare = [0x46, 0, 1, 0, 0x30, 0x5A];
    assert_eq!([forward(0, &THIS), end()].concat(), bare);
    assert!(accepted(&bare));
    let all: Vec<u8> = (0..16).flat_map(|kind| forward(kind, &NULL)).collect();
    assert!(accepted(&[all.clone(), end()].concat()));
    assert_eq!(
        refused(&[all, forward(15, &NULL), end()].concat()),
        (5, 16 * 7)
    );
    assert!(accepted(
        &[node(0), forward(0, &node_literal(0)), end()].concat()
    ));
    // No attribute and no node is declared.
    for (expr, number) in [
        (PARAMETER.to_vec(), 6),
        (of(&THIS, 0, &UNIT), 6),
        (node_literal(0), 6),
        (UNIT.to_vec(), 7),
    ] {
        let sheet = [forward(0, &expr), end()].concat();
        assert_eq!(refused(&sheet), (number, 0), "{expr:?}");
    }
    // A kind that no node has.
    assert!(accepted(&l_and_node_3(
        &[forward(2, &this_up()), forward(9, &THIS)].concat()
    )));
    for (expr, number) in [(&PARAMETER[..], 6), (&UNIT, 7)] {
        let sheet = l_and_node_3(&[forward(2, &this_up()), forward(9, expr)].concat());
        assert_eq!(refused(&sheet), (number, AFTER_RULES + 8));
    }
    // Kind 0 of sheet L has nothing left to forward, and dial of 0 is what it was.
    let sheet = l_and_node_3(&[forward(2, &this_up()), forward(0, &NULL)].concat());
    let given = fresh(&sheet, &asked(3, DIAL), MOST);
    assert_eq!(given.fields(), [0, 0, 2, 700, 10, 7]);
}

#[test]
fn an_earlier_commands_fault_comes_first() {
    let faults = [
        (forward(16, &THIS), 4),
        (forward(2, &PARAMETER), 6),
        (forward(2, &UNIT), 7),
    ];
    for (bad, number) in &faults {
        for after in [
            vec![0x46, 0],
            vec![0xFF],
            figure(3, OWN, 0),
            forward(16, &[]),
        ] {
            let sheet = l_and_node_3(&[&bad[..], &after].concat());
            assert_eq!(refused(&sheet), (*number, AFTER_RULES), "{after:?}");
        }
        let ill_typed = rule(2, OWN, &UNIT);
        let sheet = l_and_node_3(&[&ill_typed[..], bad].concat());
        assert_eq!(refused(&sheet), (7, AFTER_RULES));
    }
}

/// Questions to a sheet, each with its budget.
struct List {
    sheet: Vec<u8>,
    asks: Vec<(Vec<u8>, u64)>,
}

/// The cases, each put with budgets around its steps, and questions of which one has what another keeps due.
fn lists() -> Vec<List> {
    let around = |case: Case| {
        let budgets = [case.steps - 1, case.steps, MOST, 0, 1, MOST];
        let asks = budgets.map(|budget| (case.question.clone(), budget));
        List {
            sheet: case.sheet,
            asks: asks.into(),
        }
    };
    let to_lf = [
        (3, DIAL, 9),
        (3, OWN, MOST),
        (1, DIAL, 8),
        (3, UP, 0),
        (3, DIAL, MOST),
        (2, DIAL, 6),
    ];
    let down_a_row = [(63, 0), (64, 0), (1, 1), (65, 0), (0, 0), (64, 0), (69, 0)];
    let down_a_row = down_a_row.map(|(node, attribute)| (node, attribute, MOST));
    let further = [(sheet_lf(), &to_lf[..]), (row(70), &down_a_row)];
    let further = further.map(|(sheet, asks)| {
        let ask = |(node, attribute, budget): &(u16, u8, u64)| (asked(*node, *attribute), *budget);
        List {
            sheet,
            asks: asks.iter().map(ask).collect(),
        }
    });
    all().into_iter().map(around).chain(further).collect()
}

#[test]
fn demand_3_and_the_claims_on_circles_hold() {
    for List { sheet, asks } in lists() {
        for (capacity, counts) in tried_by_demand_3(&sheet, &asks) {
            for part in ["circles (3)", "demand 3 (d)"] {
                assert!(counts.checks[part] >= 4, "{part}, {capacity}");
            }
        }
    }
}

#[test]
fn a_forward_answers_as_its_rules_written_out() {
    let mut engine = |mut call: Call| answer_to(&mut call);
    for List { sheet, asks } in lists() {
        for (capacity, list) in in_stores(&sheet, &asks) {
            match as_rules(&mut engine, &list) {
                Ok(counts) => assert_eq!(counts.checks[AS_RULES], asks.len() as u64),
                Err(differs) => panic!("capacity {capacity}: {differs}"),
            }
        }
    }
}

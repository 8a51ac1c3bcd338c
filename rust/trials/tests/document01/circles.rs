//! Stop 20 (document 02, F-9): "when AttrApp is due on an occurrence that is open and not kept, the run stops there, uncounted". It is "tested
//! after 14 and before 15, and it leaves store and tally as 14 does".

use crate::ask;
use crate::common::*;
use oracle::plain::{Circle, Ending};
use oracle::store::Occurrence;
use oracle::values::Value;

/// A question that comes to a circle: after so many steps, with so many figures kept on the way where there is room for them.
struct Case {
    sheet: Vec<u8>,
    question: Vec<u8>,
    steps: u64,
    kept: i64,
}

/// Attribute 0 of node 0.
fn asked() -> Vec<u8> {
    of(&node_literal(0), 0, &UNIT)
}

/// Attribute 0 of this node.
fn again() -> Vec<u8> {
    of(&THIS, 0, &UNIT)
}

/// Int attributes of node 0: each is the one whose number stands in its place.
fn naming(attributes: &[u8]) -> Vec<u8> {
    let rules = (0..).zip(attributes);
    [
        attribute(INT_TYPE, UNIT_TYPE).repeat(attributes.len()),
        node(0),
        rules
            .flat_map(|(number, other)| rule(0, number, &of(&THIS, *other, &UNIT)))
            .collect(),
        end(),
    ]
    .concat()
}

/// An attribute that is itself, two and three that name each other in turn, and one that names two which do.
fn over_attributes() -> Vec<Case> {
    let attributes: [&[u8]; 4] = [&[0], &[1, 0], &[1, 2, 0], &[1, 2, 1]];
    attributes
        .map(|attributes| Case {
            sheet: naming(attributes),
            question: asked(),
            steps: attributes.len() as u64,
            kept: 0,
        })
        .into()
}

/// Nodes, each of a kind of its own: attribute 0 is that of the node whose number stands in its place. With figures, that node is attribute 1.
fn leading(nodes: &[u16], figures: bool) -> Vec<u8> {
    let places = || (0..).zip(nodes);
    let other = |node| match figures {
        true => of(&THIS, 1, &UNIT),
        false => node_literal(node),
    };
    [
        attribute(INT_TYPE, UNIT_TYPE),
        attribute(NODE_TYPE, UNIT_TYPE),
        places().flat_map(|(kind, _)| node(kind)).collect(),
        places()
            .flat_map(|(number, other)| figure(number.into(), 1, (*other).into()))
            .collect(),
        places()
            .flat_map(|(kind, node)| rule(kind, 0, &of(&other(*node), 0, &UNIT)))
            .collect(),
        end(),
    ]
    .concat()
}

/// One attribute of two and three nodes that lead to each other, and of one that leads to two which do. The figures are kept.
fn over_nodes() -> Vec<Case> {
    let nodes: [&[u16]; 3] = [&[1, 0], &[1, 2, 0], &[1, 2, 1]];
    let case = |nodes: &[u16], figures: bool| {
        let kept = if figures { nodes.len() } else { 0 };
        Case {
            sheet: leading(nodes, figures),
            question: asked(),
            steps: (nodes.len() + kept) as u64,
            kept: kept as i64,
        }
    };
    let cases = nodes.map(|nodes| [case(nodes, false), case(nodes, true)]);
    cases.into_iter().flatten().collect()
}

/// Attribute 0 of a parameter's type is itself with the parameter that an expression says. Attribute 1 is the other of the nodes 0 and 1.
fn with_parameter(typ: u8, parameter: &[u8]) -> Vec<u8> {
    [
        attribute(INT_TYPE, typ),
        attribute(NODE_TYPE, UNIT_TYPE),
        node(0).repeat(2),
        figure(0, 1, 1),
        figure(1, 1, 0),
        rule(0, 0, &of(&THIS, 0, parameter)),
        end(),
    ]
    .concat()
}

/// An Int attribute of p that is itself with one less, and from 0 down with the top: 6 steps in each form, and 4 in that of 0.
fn falling(top: i32) -> Vec<u8> {
    let less = binary(SUBTRACT, &PARAMETER, &int(1));
    let onward = if_else(&binary(LE, &PARAMETER, &int(0)), &int(top), &less);
    with_parameter(INT_TYPE, &onward)
}

/// An Int attribute of p that is itself with one less, and from 0 down another expression: as many steps as in `falling`.
fn down_to(last: &[u8]) -> Vec<u8> {
    let less = binary(SUBTRACT, &PARAMETER, &int(1));
    let done = binary(LE, &PARAMETER, &int(0));
    [
        attribute(INT_TYPE, INT_TYPE),
        node(0),
        rule(0, 0, &if_else(&done, last, &of(&THIS, 0, &less))),
        end(),
    ]
    .concat()
}

/// Attribute 0 of node 0 with a parameter.
fn asked_with(parameter: &[u8]) -> Vec<u8> {
    of(&node_literal(0), 0, parameter)
}

/// The same parameter of each type, and parameters that change and come back.
fn through_parameters() -> Vec<Case> {
    let case = |sheet: Vec<u8>, parameter: &[u8], steps, kept| Case {
        sheet,
        question: asked_with(parameter),
        steps,
        kept,
    };
    let same = |typ| with_parameter(typ, &PARAMETER);
    let other = with_parameter(BOOL_TYPE, &apply(&function(NOT), &PARAMETER));
    let following = with_parameter(NODE_TYPE, &of(&PARAMETER, 1, &UNIT));
    vec![
        case(same(BOOL_TYPE), &TRUE, 1, 0),
        case(same(INT_TYPE), &int(i32::MIN), 1, 0),
        case(same(NODE_TYPE), &node_literal(1), 1, 0),
        case(same(NODE_TYPE), &NULL, 1, 0),
        // The parameter is the same by another expression.
        case(with_parameter(INT_TYPE, &int(7)), &int(7), 1, 0),
        case(with_parameter(INT_TYPE, &int(7)), &int(8), 2, 0),
        // Not twice is the same.
        case(other.clone(), &TRUE, 4, 0),
        case(other, &FALSE, 4, 0),
        // Node 0's other, and that one's other.
        case(following, &node_literal(0), 4, 2),
        // 2, 1, 0 and 2; 0 and 2, 1, 0; 5 down to 0 and 2.
        case(falling(2), &int(2), 16, 0),
        case(falling(2), &int(0), 16, 0),
        case(falling(2), &int(5), 34, 0),
    ]
}

/// Attribute 0 of a type by its rule. Attribute 1 is its parameter of that type, attribute 2 a node, the figure 0.
fn placed(typ: u8, expr: &[u8]) -> Vec<u8> {
    [
        attribute(typ, UNIT_TYPE),
        attribute(typ, typ),
        attribute(NODE_TYPE, UNIT_TYPE),
        node(0),
        figure(0, 2, 0),
        rule(0, 0, expr),
        rule(0, 1, &PARAMETER),
        end(),
    ]
    .concat()
}

/// The attribute in every place of its own rule.
fn in_every_place() -> Vec<Case> {
    let echo = |parameter: &[u8]| of(&THIS, 1, parameter);
    let one = int(1);
    let node_2 = of(&THIS, 2, &UNIT);
    let not = function(NOT);
    let places = [
        // A parameter, a parameter's parameter, and one whose node part is finished first, or is null.
        (INT_TYPE, echo(&again()), 1, 0),
        (INT_TYPE, echo(&echo(&again())), 1, 0),
        (INT_TYPE, of(&node_2, 1, &again()), 2, 1),
        (INT_TYPE, of(&NULL, 1, &again()), 1, 0),
        // The node of an attribute, of the same one too, and a node's node.
        (NODE_TYPE, of(&again(), 2, &UNIT), 1, 0),
        (NODE_TYPE, of(&again(), 0, &UNIT), 1, 0),
        (NODE_TYPE, of(&of(&again(), 2, &UNIT), 2, &UNIT), 1, 0),
        // A condition, by itself and compared with what stands before it.
        (BOOL_TYPE, if_else(&again(), &TRUE, &FALSE), 1, 0),
        (
            INT_TYPE,
            if_else(&binary(LE, &again(), &one), &one, &one),
            1,
            0,
        ),
        (
            INT_TYPE,
            if_else(&binary(EQUAL, &one, &again()), &one, &one),
            2,
            0,
        ),
        // A branch that is taken.
        (INT_TYPE, if_else(&TRUE, &again(), &one), 2, 0),
        (INT_TYPE, if_else(&FALSE, &one, &again()), 2, 0),
        // The argument of a function of one, either argument of one of two, and the function.
        (BOOL_TYPE, apply(&not, &again()), 1, 0),
        (INT_TYPE, binary(ADD, &again(), &one), 1, 0),
        (INT_TYPE, binary(SUBTRACT, &one, &again()), 2, 0),
        (
            BOOL_TYPE,
            apply(&if_else(&again(), &not, &not), &TRUE),
            1,
            0,
        ),
    ];
    places
        .map(|(typ, expr, steps, kept)| Case {
            sheet: placed(typ, &expr),
            question: asked(),
            steps,
            kept,
        })
        .into()
}

/// The attribute that is itself, in the parts of a question.
fn in_questions() -> Vec<Case> {
    let case = |typ, question, steps, kept| Case {
        sheet: placed(typ, &again()),
        question,
        steps,
        kept,
    };
    let echo = |parameter: &[u8]| of(&node_literal(0), 1, parameter);
    let five = echo(&int(5));
    vec![
        case(INT_TYPE, echo(&asked()), 1, 0),
        case(INT_TYPE, binary(ADD, &asked(), &five), 1, 0),
        case(INT_TYPE, binary(ADD, &five, &asked()), 3, 1),
        case(NODE_TYPE, of(&asked(), 2, &UNIT), 1, 0),
        case(BOOL_TYPE, if_else(&asked(), &UNIT, &UNIT), 1, 0),
        case(BOOL_TYPE, if_else(&echo(&TRUE), &asked(), &FALSE), 3, 1),
    ]
}

/// Attributes of node 0, all Ints: OWN a figure, STEP a rule that takes a step, ROUND the sum of both and itself, and OUTER the sum of STEP and ROUND.
const OWN: u8 = 0;
const STEP: u8 = 1;
const ROUND: u8 = 2;
const OUTER: u8 = 3;

fn sums() -> Vec<u8> {
    let here = |attribute| of(&THIS, attribute, &UNIT);
    let round = binary(ADD, &here(OWN), &binary(ADD, &here(STEP), &here(ROUND)));
    [
        attribute(INT_TYPE, UNIT_TYPE).repeat(4),
        node(0),
        figure(0, OWN, 7),
        rule(0, STEP, &if_else(&TRUE, &int(1), &int(0))),
        rule(0, ROUND, &round),
        rule(0, OUTER, &binary(ADD, &here(STEP), &here(ROUND))),
        end(),
    ]
    .concat()
}

fn of_node_0(attribute: u8) -> Vec<u8> {
    of(&node_literal(0), attribute, &UNIT)
}

/// Figures that are finished on the way to the circle.
fn beside_figures() -> Vec<Case> {
    // OWN, add's first, STEP and its IF, add's first; and OUTER, STEP and its IF, add's first before all that, where STEP is kept then.
    [(ROUND, 6), (OUTER, 9)]
        .map(|(attribute, steps)| Case {
            sheet: sums(),
            question: of_node_0(attribute),
            steps,
            kept: 2,
        })
        .into()
}

/// 64 forms, the circle's and others around it.
fn inside_64() -> Vec<Case> {
    [63, 62, 9, 0]
        .map(|top| Case {
            sheet: falling(top),
            question: asked_with(&int(63)),
            steps: 63 * 6 + 4,
            kept: 0,
        })
        .into()
}

fn all() -> Vec<Case> {
    [
        over_attributes(),
        over_nodes(),
        through_parameters(),
        in_every_place(),
        in_questions(),
        beside_figures(),
        inside_64(),
    ]
    .into_iter()
    .flatten()
    .collect()
}

#[test]
fn every_budget_that_lets_it_come_so_far_brings_20() {
    for Case {
        sheet,
        question,
        steps,
        kept,
    } in all()
    {
        for budget in [steps, steps + 1, 2 * steps, MOST] {
            let given = fresh(&sheet, &question, budget);
            let stop = [20, 0, 0, 0, steps as i64, kept];
            assert_eq!(given.fields(), stop, "{sheet:?} {question:?}");
        }
        for budget in 0..steps {
            let given = fresh(&sheet, &question, budget);
            assert_eq!(given.fields()[..5], [15, 0, 0, 0, budget as i64]);
        }
    }
}

#[test]
fn plain_saiga_runs_for_ever() {
    // It keeps nothing: OUTER takes STEP's IF a second time, and else no figure is taken twice on the way.
    for Case {
        sheet,
        question,
        steps,
        ..
    } in all()
    {
        let watched = plain_watched(&sheet, &question, 50_000);
        assert_eq!(watched.ending, Ending::Running(50_000));
        let more = u64::from(question == of_node_0(OUTER) && sheet == sums());
        let circle = watched.circle.expect("a circle");
        assert_eq!(circle.steps, steps + more, "{sheet:?} {question:?}");
    }
}

#[test]
fn the_occurrence_that_comes_due_inside_its_own_evaluation() {
    let circle = |sheet: &[u8], parameter: &[u8]| {
        let watched = plain_watched(sheet, &asked_with(parameter), 1_000);
        let Circle { occurrence, steps } = watched.circle?;
        assert_eq!((occurrence.node, occurrence.attribute), (0, 0));
        Some((occurrence.parameter, steps))
    };
    // What stands before the circle is passed once.
    assert_eq!(circle(&falling(2), &int(5)), Some((Value::Int(2), 34)));
    assert_eq!(circle(&falling(2), &int(1)), Some((Value::Int(1), 16)));
    let seven = with_parameter(INT_TYPE, &int(7));
    assert_eq!(circle(&seven, &int(8)), Some((Value::Int(7), 2)));
    // Attribute 0 names two that name each other.
    let between = plain_watched(&naming(&[1, 2, 1]), &asked(), 1_000).circle;
    let first = Occurrence {
        node: 0,
        attribute: 1,
        parameter: Value::Unit,
    };
    let circle = Circle {
        occurrence: first,
        steps: 3,
    };
    assert_eq!(between, Some(circle));
}

#[test]
fn another_parameter_is_another_occurrence() {
    // One more each time, three steps in each form: the 65th is too deep, or the sum is one too many before that.
    let rising = with_parameter(INT_TYPE, &binary(ADD, &PARAMETER, &int(1)));
    let given = fresh(&rising, &asked_with(&int(0)), MOST);
    assert_eq!(given.fields(), [16, 0, 0, 0, 3 * 64, 0]);
    let given = fresh(&rising, &asked_with(&int(0)), 3 * 64);
    assert_eq!(given.fields(), [15, 0, 0, 0, 3 * 64, 0]);
    let given = fresh(&rising, &asked_with(&int(i32::MAX - 9)), MOST);
    assert_eq!(given.fields(), [17, 0, 0, 0, 3 * 9 + 2, 0]);
    // One less down to 0, which is an end: a value.
    let given = fresh(&down_to(&int(5)), &asked_with(&int(9)), MOST);
    assert_eq!(given.fields(), [0, 0, 2, 5, 9 * 6 + 4, 10]);
    // The other Bool, and an end for it.
    let given = fresh(&of_the_other_bool(), &asked_with(&TRUE), MOST);
    assert_eq!(given.fields(), [0, 0, 2, 5, 5, 2]);
}

#[test]
fn another_node_or_attribute_is_another_occurrence() {
    // Attribute 0 of nodes 0 and 1 leads to node 2, whose attribute 0 is its attribute 1, and that a number.
    let onward = |node| of(&node_literal(node), 0, &UNIT);
    let sheet = [
        attribute(INT_TYPE, UNIT_TYPE).repeat(2),
        node(0),
        node(1),
        node(2),
        rule(0, 0, &onward(1)),
        rule(1, 0, &onward(2)),
        rule(2, 0, &of(&THIS, 1, &UNIT)),
        (0..3).flat_map(|kind| rule(kind, 1, &int(5))).collect(),
        end(),
    ]
    .concat();
    let given = fresh(&sheet, &asked(), MOST);
    assert_eq!(given.fields(), [0, 0, 2, 5, 4, 4]);
}

#[test]
fn a_circle_in_a_branch_not_taken_is_not_due() {
    for expr in [
        if_else(&TRUE, &int(5), &again()),
        if_else(&FALSE, &again(), &int(5)),
    ] {
        let given = fresh(&placed(INT_TYPE, &expr), &asked(), MOST);
        assert_eq!(given.fields(), [0, 0, 2, 5, 2, 1]);
    }
}

#[test]
fn a_figure_in_the_way_ends_it() {
    // Of three nodes in a ring, node 2 has a figure.
    let sheet = [
        attribute(INT_TYPE, UNIT_TYPE),
        attribute(NODE_TYPE, UNIT_TYPE),
        node(0).repeat(3),
        figure(2, 0, 5),
        (0..3)
            .flat_map(|n| figure(n, 1, (i32::from(n) + 1) % 3))
            .collect(),
        rule(0, 0, &of(&of(&THIS, 1, &UNIT), 0, &UNIT)),
        end(),
    ]
    .concat();
    let mut lent = Lent::new(1_024);
    for (steps, kept) in [(5, 5), (1, 5)] {
        let given = lent.ask(&sheet, &asked(), MOST);
        assert_eq!(given.fields(), [0, 0, 2, 5, steps, kept]);
    }
}

#[test]
fn an_attribute_of_null_is_no_occurrence() {
    // The null's attribute has the number and the parameter of the open one.
    let sheet = placed(INT_TYPE, &of(&NULL, 0, &UNIT));
    for budget in [1, 2, MOST] {
        let given = fresh(&sheet, &asked(), budget);
        assert_eq!(given.fields(), [14, 0, 0, 0, 1, 0]);
    }
    // Inside 64 forms too, with the whole budget used: attribute 0 of 0 is that of null with 63, which is open of node 0.
    let sheet = down_to(&of(&NULL, 0, &int(63)));
    for budget in [63 * 6 + 4, MOST] {
        let given = fresh(&sheet, &asked_with(&int(63)), budget);
        assert_eq!(given.fields(), [14, 0, 0, 0, 63 * 6 + 4, 0]);
    }
}

#[test]
fn inside_64_forms_what_is_open_is_20_and_what_is_new_is_16() {
    // From 63 down 64 forms are open. What is due then is the first of them, the last, or one that is new.
    let due = |top, budget| {
        let given = fresh(&falling(top), &asked_with(&int(63)), budget);
        assert_eq!(given.fields()[1..], [0, 0, 0, 63 * 6 + 4, 0]);
        given.number
    };
    for budget in [63 * 6 + 4, 63 * 6 + 5, MOST] {
        assert_eq!(due(63, budget), 20);
        assert_eq!(due(0, budget), 20);
    }
    assert_eq!(due(64, MOST), 16);
    assert_eq!(due(64, 63 * 6 + 5), 16);
    assert_eq!(due(64, 63 * 6 + 4), 15);
    // A circle of 65 and more is too deep before it closes. Plain Saiga has no depth, and runs for ever there too.
    for (top, start) in [(64, 64), (63, 64), (200, 200), (200, 63)] {
        let question = asked_with(&int(start));
        let given = fresh(&falling(top), &question, MOST);
        assert_eq!(given.number, 16, "{top} {start}");
        let watched = plain_watched(&falling(top), &question, 10_000);
        assert_eq!(watched.ending, Ending::Running(10_000));
        assert!(watched.circle.is_some());
    }
}

#[test]
fn the_part_that_is_due_first_decides_between_17_and_20() {
    let sum_first = placed(INT_TYPE, &binary(ADD, &l13(), &again()));
    let given = fresh(&sum_first, &asked(), MOST);
    assert_eq!(given.fields(), [17, 0, 0, 0, 2, 0]);
    let circle_first = placed(INT_TYPE, &binary(ADD, &again(), &l13()));
    let given = fresh(&circle_first, &asked(), MOST);
    assert_eq!(given.fields(), [20, 0, 0, 0, 1, 0]);
}

#[test]
fn what_is_finished_is_kept_and_what_is_open_is_not() {
    let sheet = sums();
    let mut lent = Lent::new(5);
    let given = lent.ask(&sheet, &of_node_0(OUTER), MOST);
    assert_eq!(given.fields(), [20, 0, 0, 0, 9, 2]);
    let finished = [
        entry(0, STEP, INT_TYPE, 0, 1),
        entry(0, OWN, INT_TYPE, 0, 7),
    ]
    .concat();
    let left = [finished, vec![0xEE; 36]].concat();
    assert_eq!(lent.store, left);
    // Asked again, STEP's IF is spared; ROUND and OUTER stop as before, and nothing more is kept.
    for (attribute, steps) in [(OUTER, 8), (OUTER, 8), (ROUND, 5), (ROUND, 5)] {
        let given = lent.ask(&sheet, &of_node_0(attribute), MOST);
        assert_eq!(given.fields(), [20, 0, 0, 0, steps, 2]);
        assert_eq!(lent.store, left);
    }
    // What was finished is there for the next question.
    for (attribute, value) in [(STEP, 1), (OWN, 7)] {
        let given = lent.ask(&sheet, &of_node_0(attribute), 1);
        assert_eq!(given.fields(), [0, 0, 2, value, 1, 2]);
    }
}

#[test]
fn the_tally_is_that_of_the_steps_before() {
    let rows = |[own, step, round, outer]: [u64; 4], applications, conditions| {
        let mut tally = [0; 34];
        tally[..4].copy_from_slice(&[own, step, round, outer]);
        tally[32..].copy_from_slice(&[applications, conditions]);
        tally
    };
    let tally = |attribute, budget| fresh(&sums(), &of_node_0(attribute), budget).tally;
    for budget in [6, MOST] {
        assert_eq!(tally(ROUND, budget), rows([1, 1, 1, 0], 2, 1));
    }
    for budget in [9, MOST] {
        assert_eq!(tally(OUTER, budget), rows([1, 2, 1, 1], 3, 1));
    }
    assert_eq!(tally(OUTER, 0), [0; 34]);
}

#[test]
fn what_is_closed_is_no_circle_kept_or_not() {
    // STEP is due twice, side by side, inside another attribute and in the question. Where there is no room for it, it is worked out again.
    let twice = |step: &[u8]| binary(ADD, step, step);
    let step = if_else(&TRUE, &int(1), &int(0));
    let sheet = [
        attribute(INT_TYPE, UNIT_TYPE).repeat(2),
        node(0),
        rule(0, 0, &twice(&of(&THIS, 1, &UNIT))),
        rule(0, 1, &step),
        end(),
    ]
    .concat();
    for (capacity, inside, alone) in [(1_024, 6, 5), (1, 6, 5), (0, 7, 6)] {
        let given = Lent::new(capacity).ask(&sheet, &asked(), MOST);
        assert_eq!(given.fields()[..5], [0, 0, 2, 2, inside], "{capacity}");
        let question = twice(&of_node_0(1));
        let given = Lent::new(capacity).ask(&sheet, &question, MOST);
        assert_eq!(given.fields()[..5], [0, 0, 2, 2, alone], "{capacity}");
    }
    // In a full store: attribute 1 takes the room, and attribute 0, closed and not kept, is asked again.
    let mut lent = Lent::new(1);
    let given = lent.ask(&sheet, &twice(&asked()), MOST);
    assert_eq!(given.fields(), [0, 0, 2, 4, 6 + 5 + 2, 1]);
    assert_eq!(lent.store, entry(0, 1, INT_TYPE, 0, 1));
}

#[test]
fn a_parameter_is_stepped_before_its_form_is_open() {
    // An attribute of itself, with the same parameter in the end.
    let sheet = [
        attribute(INT_TYPE, INT_TYPE),
        node(0),
        rule(0, 0, &PARAMETER),
        end(),
    ]
    .concat();
    let question = asked_with(&asked_with(&asked_with(&int(5))));
    for capacity in [0, 1] {
        let given = Lent::new(capacity).ask(&sheet, &question, MOST);
        assert_eq!(given.fields(), [0, 0, 2, 5, 3, capacity as i64]);
    }
}

/// Attribute 1 is IF attribute 0 THEN 5 ELSE itself; attribute 0 is the figure true.
fn bridged() -> Vec<u8> {
    let expr = if_else(&of(&THIS, 0, &UNIT), &int(5), &of(&THIS, 1, &UNIT));
    [
        attribute(BOOL_TYPE, UNIT_TYPE),
        attribute(INT_TYPE, UNIT_TYPE),
        node(0),
        figure(0, 0, 1),
        rule(0, 1, &expr),
        end(),
    ]
    .concat()
}

#[test]
fn a_lent_figure_is_believed() {
    // By a store that says false, plain Saiga ends and the run does not: the claims are of lists that start with nothing kept.
    let question = of_node_0(1);
    let wrong = [entry(0, 0, BOOL_TYPE, 0, 0), vec![0; 12]].concat();
    let mut store = wrong.clone();
    let given = ask(&bridged(), &mut store, 1, &question, MOST);
    assert_eq!(given.fields(), [20, 0, 0, 0, 3, 1]);
    assert_eq!(store, wrong);
    let given = Lent::new(2).ask(&bridged(), &question, MOST);
    assert_eq!(given.fields(), [0, 0, 2, 5, 3, 2]);
    let ending = plain_ending(&bridged(), &question, MOST);
    assert_eq!(ending, Ending::Value(Value::Int(5), 3));
    // And one that keeps what is a circle has it answered.
    let mut store = entry(0, 0, INT_TYPE, 0, 7);
    let given = ask(&sheet_l12(), &mut store, 1, &asked(), MOST);
    assert_eq!(given.fields(), [0, 0, 2, 7, 1, 1]);
}

#[test]
fn a_circle_in_the_second_question_of_a_list() {
    let sheet = sums();
    let mut lent = Lent::new(2);
    let step = [0, 0, 2, 1, 2, 1];
    assert_eq!(lent.ask(&sheet, &of_node_0(STEP), MOST).fields(), step);
    // STEP is kept, and its IF is spared.
    for (budget, fields) in [
        (4, [15, 0, 0, 0, 4, 2]),
        (5, [20, 0, 0, 0, 5, 2]),
        (MOST, [20, 0, 0, 0, 5, 2]),
    ] {
        let given = lent.ask(&sheet, &of_node_0(ROUND), budget);
        assert_eq!(given.fields(), fields);
    }
    let step = [0, 0, 2, 1, 1, 2];
    assert_eq!(lent.ask(&sheet, &of_node_0(STEP), MOST).fields(), step);
}

#[test]
fn demand_3_and_the_claims_hold_of_circles() {
    for Case {
        sheet,
        question,
        steps,
        ..
    } in all()
    {
        let budgets = [MOST, steps, steps - 1, 0, MOST];
        let list = budgets.map(|budget| (question.clone(), budget));
        for (capacity, counts) in tried_by_demand_3(&sheet, &list) {
            for part in ["circles (1)", "circles (2)", "circles (3)", "demand 3 (d)"] {
                assert!(counts.checks[part] >= 4, "{part}, {capacity}");
            }
            assert!(counts.answers[&20] >= 2);
        }
    }
}

#[test]
fn demand_3_and_the_claims_hold_of_lists_with_figures_and_circles() {
    let attributes = [ROUND, STEP, OUTER, OWN, ROUND, STEP, OUTER];
    let budgets = [5, MOST, 8, 0, MOST, 1, MOST];
    let questions = attributes.map(of_node_0).into_iter().zip(budgets);
    let sums_list: Vec<_> = questions.collect();
    let starts = [(63, MOST), (2, 15), (64, MOST), (0, 16), (63, 381)];
    let falls = starts.map(|(start, budget)| (asked_with(&int(start)), budget));
    let bridged_list = [1, 0, 1].map(|attribute| (of_node_0(attribute), MOST));
    let lists = [
        (sums(), &sums_list[..], 20),
        (falling(63), &falls, 20),
        (falling(62), &falls, 16),
        (bridged(), &bridged_list, 0),
    ];
    for (sheet, list, number) in lists {
        for (capacity, counts) in tried_by_demand_3(&sheet, list) {
            assert!(counts.checks["circles (3)"] >= 3, "{capacity}");
            assert!(counts.answers[&number] > 0, "{capacity}");
        }
    }
}

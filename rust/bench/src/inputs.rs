//! The inputs of the rows, made in code and without chance. A question of many steps is made of few bytes by attributes
//! that ask the same again, on nodes or with parameters that the store has not kept.

use trials::write::*;

use crate::programs::Input;

/// Null as a figure.
const NULL_FIGURE: i32 = 65_535;

/// A store with nothing kept.
pub fn empty(capacity: usize) -> Vec<u8> {
    vec![0; 12 * capacity]
}

/// Sheet L of document 01, with D, the dial of node 1, and an empty store: 8 steps.
pub fn sheet_l() -> Input {
    Input {
        sheet: trials::write::sheet_l(),
        question: d(),
        store: empty(1_024),
        ..Input::default()
    }
}

/// The nodes of a chain: its head and 60 more.
const CHAIN: u16 = 61;
const CHAINS: u16 = 16;

/// The dial of the last node of a chain.
fn end_of_chain(chain: u16) -> Vec<u8> {
    of(&node_literal(CHAIN * chain + CHAIN - 1), 1, &UNIT)
}

/// Chains of nodes: attribute 0 is the node before, and attribute 1 that of the node before, a figure at the chain's head.
/// The last node's opens 60 forms. The question is the sum of 8 chains: 982 steps, of which 968 are kept.
pub fn chains() -> Input {
    let nodes = 0..CHAINS * CHAIN;
    let figures = nodes.clone().flat_map(|number| match number % CHAIN {
        0 => [
            figure(number, 0, NULL_FIGURE),
            figure(number, 1, number.into()),
        ]
        .concat(),
        _ => figure(number, 0, i32::from(number) - 1),
    });
    let sheet = [
        attribute(NODE_TYPE, UNIT_TYPE),
        attribute(INT_TYPE, UNIT_TYPE),
        node(0).repeat(nodes.len()),
        figures.collect(),
        rule(0, 1, &of(&of(&THIS, 0, &UNIT), 1, &UNIT)),
        end(),
    ];
    Input {
        sheet: sheet.concat(),
        question: sum((0..8).map(end_of_chain)),
        store: empty(1_024),
        ..Input::default()
    }
}

/// The chains, and then a question whose figure is kept: 1 step.
pub fn kept_figure() -> Input {
    let chains = chains();
    Input {
        before: vec![chains.question],
        question: end_of_chain(7),
        ..chains
    }
}

/// Hops along a ring of 1,021 nodes: attribute 0 is the node 7 places on, and attribute k is attribute k - 1 twice. Nothing
/// but AttrApp is counted. With a store the question is attribute 19 of node 0: 873,813 steps, of which some two in ten find
/// a kept value, once the store is full. With capacity 0 nothing is kept and it is three attributes one of the other:
/// 917,501 steps.
pub fn hops(capacity: usize) -> Input {
    const RING: u16 = 1_021;
    const LAST: u8 = 19;
    let twice = |k: u8| of(&of(&THIS, k - 1, &UNIT), k - 1, &UNIT);
    let sheet = [
        attribute(NODE_TYPE, UNIT_TYPE).repeat(usize::from(LAST) + 1),
        node(0).repeat(RING.into()),
        (0..RING)
            .flat_map(|number| figure(number, 0, ((number + 7) % RING).into()))
            .collect(),
        (1..=LAST).flat_map(|k| rule(0, k, &twice(k))).collect(),
        end(),
    ];
    let asked: &[u8] = match capacity {
        0 => &[LAST - 3, LAST - 2, LAST - 1],
        _ => &[LAST],
    };
    Input {
        sheet: sheet.concat(),
        question: asked
            .iter()
            .fold(node_literal(0), |node, k| of(&node, *k, &UNIT)),
        store: empty(capacity),
        ..Input::default()
    }
}

/// Attribute 0 of p adds up six choices between a sum and a difference, 48 steps of IF and application; attribute 1 adds it
/// up 31 times and attribute 2 that 31 times. The question is the sum of 18 parameters with capacity 0: 882,772 steps.
pub fn branches() -> Input {
    let choice = |i: i32| {
        if_else(
            &apply(&function(NOT), &binary(LE, &PARAMETER, &int(3 * i))),
            &binary(SUBTRACT, &PARAMETER, &int(i)),
            &binary(ADD, &PARAMETER, &int(i)),
        )
    };
    let work = (0..6).fold(PARAMETER.to_vec(), |work, i| binary(ADD, &choice(i), &work));
    let often = |k: u8| sum((0..31).map(|_| of(&THIS, k, &PARAMETER)));
    let sheet = [
        attribute(INT_TYPE, INT_TYPE).repeat(3),
        node(0),
        rule(0, 0, &work),
        rule(0, 1, &often(0)),
        rule(0, 2, &often(1)),
        end(),
    ];
    Input {
        sheet: sheet.concat(),
        question: sum((0..18).map(|p| of(&node_literal(0), 2, &int(p)))),
        store: empty(0),
        ..Input::default()
    }
}

/// Attributes 0 to 7 each add up 28 numbers, of which about half are negative, in an irregular order; attribute 8 adds
/// these up, 31 of them, and attribute 9 that 31 times. The question is the sum of 18 with capacity 0: 986,560 steps, with an
/// Int read for every two. The numbers have 23 bits, so that every sum fits.
pub fn signs() -> Input {
    const SUMS: u8 = 8;
    let number = |n: u32| (n.wrapping_mul(2_654_435_769) as i32) >> 9;
    let numbers = |k: u8| sum((0..28).map(|n| int(number(28 * u32::from(k) + n))));
    let often = |of_each: &[u8]| {
        let parts = of_each.iter().cycle().take(31);
        sum(parts.map(|k| of(&THIS, *k, &UNIT)))
    };
    let all: Vec<u8> = (0..SUMS).collect();
    let sheet = [
        attribute(INT_TYPE, UNIT_TYPE).repeat(usize::from(SUMS) + 2),
        node(0),
        all.iter().flat_map(|k| rule(0, *k, &numbers(*k))).collect(),
        rule(0, SUMS, &often(&all)),
        rule(0, SUMS + 1, &often(&[SUMS])),
        end(),
    ];
    Input {
        sheet: sheet.concat(),
        question: sum((0..18).map(|_| of(&node_literal(0), SUMS + 1, &UNIT))),
        store: empty(0),
        ..Input::default()
    }
}

/// Attribute 0 of p is p up to 1, and else the sum of those of p - 1 and p - 2. The question is the sum of 18 nodes' with
/// parameter 40: 7,882 steps, which keep a figure for each node and parameter, 738 in all.
pub fn parameterised() -> Input {
    const NODES: u16 = 18;
    let before = |n: i32| of(&THIS, 0, &binary(SUBTRACT, &PARAMETER, &int(n)));
    let fibonacci = if_else(
        &binary(LE, &PARAMETER, &int(1)),
        &PARAMETER,
        &binary(ADD, &before(1), &before(2)),
    );
    let sheet = [
        attribute(INT_TYPE, INT_TYPE),
        node(0).repeat(NODES.into()),
        rule(0, 0, &fibonacci),
        end(),
    ];
    Input {
        sheet: sheet.concat(),
        question: sum((0..NODES).map(|number| of(&node_literal(number), 0, &int(40)))),
        store: empty(1_024),
        ..Input::default()
    }
}

/// An expression for attribute 0 of p: up to 1 it is `last`, and else attribute 0 of p - 1.
fn down_to(last: &[u8]) -> Vec<u8> {
    let less = of(&THIS, 0, &binary(SUBTRACT, &PARAMETER, &int(1)));
    if_else(&binary(LE, &PARAMETER, &int(1)), last, &less)
}

/// Attribute 0 of p is 1 up to 1, and else that of p - 1: that of 64 opens 64 forms, all of one node and attribute. The question is the sum of 16 nodes'
/// with parameter 64: 6,142 steps, which keep 1,024 figures.
pub fn deep_parameters() -> Input {
    const NODES: u16 = 16;
    let sheet = [
        attribute(INT_TYPE, INT_TYPE),
        node(0).repeat(NODES.into()),
        rule(0, 0, &down_to(&int(1))),
        end(),
    ];
    Input {
        sheet: sheet.concat(),
        question: sum((0..NODES).map(|number| of(&node_literal(number), 0, &int(64)))),
        store: empty(1_024),
        ..Input::default()
    }
}

/// How many attributes one inside the other a rule has room for.
pub const NESTED: usize = 84;

/// Attribute k of this node, of that attribute of the parameter, and so on, `NESTED` times.
pub fn nested(k: u8) -> Vec<u8> {
    (0..NESTED).fold(PARAMETER.to_vec(), |inner, _| of(&THIS, k, &inner))
}

/// Attribute 0 of p goes down to 1, a form for each, and is attribute 3 there, which is attribute 2 of itself 84 times, and that attribute 1, a rule, 84
/// times. From 61 on, all look-ups of attribute 1 but a few have 63 forms around them. The question is the sum of 18 nodes' with capacity 0: 135,124
/// steps.
pub fn inside_63() -> Input {
    const NODES: u16 = 18;
    let sheet = [
        attribute(INT_TYPE, INT_TYPE).repeat(4),
        node(0).repeat(NODES.into()),
        rule(0, 0, &down_to(&of(&THIS, 3, &PARAMETER))),
        rule(0, 1, &PARAMETER),
        rule(0, 2, &nested(1)),
        rule(0, 3, &nested(2)),
        end(),
    ];
    Input {
        sheet: sheet.concat(),
        question: sum((0..NODES).map(|number| of(&node_literal(number), 0, &int(61)))),
        ..Input::default()
    }
}

/// A chain of 64 nodes, in which all but the first are of kinds that do nothing but forward to this node's attribute 0, the node before, a figure.
/// Attribute 1 of the last is a figure of the first, after 63 hops of two AttrApps each, inside as many forms. The question is the sum of 18 such with
/// capacity 0: 2,320 steps.
pub fn forwards() -> Input {
    const NODES: u16 = 64;
    const KINDS: u8 = 16;
    let kind = |number: u16| 1 + (number % u16::from(KINDS - 1)) as u8;
    let before = |number: u16| i32::from(number) - 1;
    let sheet = [
        attribute(NODE_TYPE, UNIT_TYPE),
        attribute(INT_TYPE, UNIT_TYPE),
        node(0),
        (1..NODES).flat_map(|number| node(kind(number))).collect(),
        figure(0, 0, NULL_FIGURE),
        figure(0, 1, 7),
        (1..NODES)
            .flat_map(|number| figure(number, 0, before(number)))
            .collect(),
        (1..KINDS)
            .flat_map(|kind| forward(kind, &of(&THIS, 0, &UNIT)))
            .collect(),
        end(),
    ];
    Input {
        sheet: sheet.concat(),
        question: sum((0..18).map(|_| of(&node_literal(NODES - 1), 1, &UNIT))),
        ..Input::default()
    }
}

/// A sheet of exactly `size` bytes, whose parts grow together: a node for every 64 bytes, each with 4 figures, a kind for
/// every 4 KiB or part of it, each with 12 rules in the bytes left. A figure is asked that is kept, in a store of as many
/// entries as there are nodes.
pub fn sized(size: usize) -> Input {
    const FIGURES: u8 = 4;
    const RULES: u8 = 12;
    let nodes = (size / 64) as u16;
    let kinds = size.div_ceil(4_096) as u8;
    let declared = [
        attribute(INT_TYPE, UNIT_TYPE).repeat((FIGURES + RULES).into()),
        (0..nodes)
            .flat_map(|number| node((number % u16::from(kinds)) as u8))
            .collect(),
    ];
    let pairs = (0..nodes).flat_map(|number| (0..FIGURES).map(move |a| (number, a)));
    let value = |number: u16, a: u8| i32::from(number) * 4 + i32::from(a);
    let mut sheet = declared.concat();
    sheet.extend(pairs.flat_map(|(number, a)| figure(number, a, value(number, a))));
    let rules = usize::from(kinds) * usize::from(RULES);
    let left = size - sheet.len() - end().len() - 5 * rules;
    for number in 0..rules {
        let length = left / rules + usize::from(number < left % rules);
        let kind = (number / usize::from(RULES)) as u8;
        let attribute = FIGURES + (number % usize::from(RULES)) as u8;
        sheet.extend(rule(kind, attribute, &int_of_length(length)));
    }
    sheet.extend(end());
    assert_eq!(sheet.len(), size);
    Input {
        sheet,
        question: of(&node_literal(nodes - 1), 0, &UNIT),
        store: (0..nodes)
            .flat_map(|number| entry(number, 0, INT_TYPE, 0, value(number, 0)))
            .collect(),
        kept: nodes.into(),
        ..Input::default()
    }
}

/// An Int expression of a length from 25 on, in sums and choices of figures and numbers.
fn int_of_length(length: usize) -> Vec<u8> {
    let figure = |number: usize| of(&THIS, (number % 4) as u8, &UNIT);
    let mut expression = figure(0);
    let room = length - expression.len();
    // Parts of 7 to 9 bytes each.
    let parts = room.div_ceil(9);
    for number in 0..parts {
        let width = room / parts + usize::from(number < room % parts);
        expression = match width {
            7 => if_else(&TRUE, &expression, &figure(number)),
            8 => binary(ADD, &expression, &figure(number)),
            _ => binary(ADD, &expression, &int(number as i32)),
        };
    }
    assert_eq!(expression.len(), length);
    expression
}

#[cfg(test)]
mod tests {
    use super::*;
    use crate::programs::counts;

    #[test]
    fn the_counts_are_as_said() {
        assert_eq!(counts(&sheet_l()), (8, 5));
        assert_eq!(counts(&chains()), (982, 968));
        assert_eq!(counts(&kept_figure()), (1, 968));
        assert_eq!(counts(&hops(1_024)), (873_813, 1_024));
        assert_eq!(counts(&hops(0)), (917_501, 0));
        assert_eq!(counts(&branches()), (882_772, 0));
        assert_eq!(counts(&signs()), (986_560, 0));
        assert_eq!(counts(&parameterised()), (7_882, 738));
        assert_eq!(counts(&deep_parameters()), (6_142, 1_024));
        assert_eq!(counts(&inside_63()), (135_124, 0));
        assert_eq!(counts(&forwards()), (2_320, 0));
        assert_eq!(counts(&sized(1_024)), (1, 16));
        assert_eq!(counts(&sized(16_384)), (1, 256));
        assert_eq!(counts(&sized(65_536)), (1, 1_024));
    }
}

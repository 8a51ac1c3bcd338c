//! The bytes of commands, expressions and entries, and sheets L and LF.

/// Type codes.
pub const UNIT_TYPE: u8 = 0;
pub const BOOL_TYPE: u8 = 1;
pub const INT_TYPE: u8 = 2;
pub const NODE_TYPE: u8 = 3;

pub fn attribute(result: u8, parameter: u8) -> Vec<u8> {
    vec![0x41, result, parameter]
}

pub fn node(kind: u8) -> Vec<u8> {
    vec![0x4E, kind]
}

pub fn figure(node: u16, attribute: u8, value: i32) -> Vec<u8> {
    let mut command = vec![0x56];
    command.extend(node.to_le_bytes());
    command.push(attribute);
    command.extend(value.to_le_bytes());
    command
}

pub fn rule(kind: u8, attribute: u8, expr: &[u8]) -> Vec<u8> {
    with_expression(&[0x52, kind, attribute], expr)
}

pub fn forward(kind: u8, expr: &[u8]) -> Vec<u8> {
    with_expression(&[0x46, kind], expr)
}

/// A command that ends in the length of an expression and the expression.
fn with_expression(front: &[u8], expr: &[u8]) -> Vec<u8> {
    let length = (expr.len() as u16).to_le_bytes();
    [front, &length, expr].concat()
}

pub fn end() -> Vec<u8> {
    vec![0x5A]
}

pub const UNIT: [u8; 1] = [0x10];
pub const FALSE: [u8; 2] = [0x11, 0];
pub const TRUE: [u8; 2] = [0x11, 1];
pub const NULL: [u8; 3] = [0x13, 0xFF, 0xFF];
pub const THIS: [u8; 1] = [0x30];
pub const PARAMETER: [u8; 1] = [0x31];

/// Function codes.
pub const LE: u8 = 0;
pub const EQUAL: u8 = 1;
pub const NOT: u8 = 3;
pub const ADD: u8 = 4;
pub const SUBTRACT: u8 = 5;

pub fn int(value: i32) -> Vec<u8> {
    [&[0x12], &value.to_le_bytes()[..]].concat()
}

pub fn node_literal(number: u16) -> Vec<u8> {
    [&[0x13], &number.to_le_bytes()[..]].concat()
}

pub fn function(code: u8) -> Vec<u8> {
    vec![0x14, code]
}

pub fn if_else(condition: &[u8], yes: &[u8], no: &[u8]) -> Vec<u8> {
    [&[0x20], condition, yes, no].concat()
}

pub fn apply(function: &[u8], argument: &[u8]) -> Vec<u8> {
    [&[0x21], function, argument].concat()
}

/// A function of two arguments given both.
pub fn binary(code: u8, first: &[u8], second: &[u8]) -> Vec<u8> {
    apply(&apply(&function(code), first), second)
}

/// The sum of some parts, of which there is one at least.
pub fn sum(parts: impl IntoIterator<Item = Vec<u8>>) -> Vec<u8> {
    parts
        .into_iter()
        .reduce(|sum, part| binary(ADD, &sum, &part))
        .expect("a sum has a part")
}

/// An attribute of a node.
pub fn of(node: &[u8], attribute: u8, parameter: &[u8]) -> Vec<u8> {
    [&[0x22, attribute], node, parameter].concat()
}

/// An entry of a store, with the type code of its value.
pub fn entry(node: u16, attribute: u8, code: u8, parameter: i32, value: i32) -> Vec<u8> {
    let mut bytes = node.to_le_bytes().to_vec();
    bytes.extend([attribute, code]);
    bytes.extend(parameter.to_le_bytes());
    bytes.extend(value.to_le_bytes());
    bytes
}

/// Sheet L's attributes.
pub const UP: u8 = 0;
pub const OWN: u8 = 1;
pub const DIAL: u8 = 2;

/// This node's up.
pub fn this_up() -> Vec<u8> {
    of(&THIS, UP, &UNIT)
}

/// Sheet L.
pub fn sheet_l() -> Vec<u8> {
    l_with(&[], &[], &[])
}

/// Sheet LF: sheet L and node 3 of kind 2, whose up is node 1, with a forward to this node's up for that kind.
pub fn sheet_lf() -> Vec<u8> {
    l_with(&node(2), &figure(3, UP, 1), &forward(2, &this_up()))
}

/// Sheet L with further nodes, figures and rules, each after its own.
pub fn l_with(nodes: &[u8], figures: &[u8], rules: &[u8]) -> Vec<u8> {
    let own = of(&THIS, OWN, &UNIT);
    let inherited = of(&this_up(), DIAL, &UNIT);
    let dial = if_else(&binary(EQUAL, &own, &int(0)), &inherited, &own);
    [
        attribute(NODE_TYPE, UNIT_TYPE),
        attribute(INT_TYPE, UNIT_TYPE),
        attribute(INT_TYPE, UNIT_TYPE),
        node(0),
        node(1),
        node(1),
        nodes.to_vec(),
        figure(0, UP, 65_535),
        figure(0, OWN, 700),
        figure(1, UP, 0),
        figure(1, OWN, 0),
        figure(2, UP, 0),
        figure(2, OWN, 811),
        figures.to_vec(),
        rule(0, DIAL, &own),
        rule(1, DIAL, &dial),
        rules.to_vec(),
        end(),
    ]
    .concat()
}

/// Node 1's dial.
pub fn d() -> Vec<u8> {
    of(&node_literal(1), DIAL, &UNIT)
}

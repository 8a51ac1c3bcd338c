//! Drawings of a sheet's nodes: Graphviz's language, and pictures.

pub mod dot;
pub mod layout;
pub mod svg;

use sofretu::Value;

use crate::sheet::Sheet;
use crate::words;

/// A fill for each kind: light, so that black text is read on it.
const FILLS: [&str; 16] = [
    "#cfe3f7", "#fde2b8", "#d3efcf", "#f6cfd3", "#e2d6f3", "#f7f0b5", "#c9eeea", "#f4d4ea",
    "#dcdcdc", "#e9dcc3", "#c5d5ef", "#e4f2b6", "#f9cdb5", "#cfe8dc", "#d9cbe0", "#f2e3e3",
];

/// The fill of a kind.
fn fill(kind: u8) -> &'static str {
    FILLS[usize::from(kind) % FILLS.len()]
}

/// The figures that lead from node to node, by node and attribute: from, attribute, to.
fn arrows(sheet: &Sheet) -> Vec<(u16, u8, u16)> {
    let figures = sheet.figures.iter();
    let leads = |(&(node, attribute), (figure, _)): (&(u16, u8), &(Value, usize))| match figure {
        Value::Node(Some(to)) => Some((node, attribute, *to)),
        _ => None,
    };
    let mut arrows: Vec<_> = figures.filter_map(leads).collect();
    arrows.sort_unstable();
    arrows
}

/// A node with its kind and its figures: `n1: k1, a0 = n0, a1 = 0`.
fn told(sheet: &Sheet, node: u16) -> String {
    let mut text = format!("n{node}: k{}", sheet.nodes[usize::from(node)]);
    for attribute in 0..sheet.attributes.len() as u8 {
        if let Some((figure, _)) = sheet.figures.get(&(node, attribute)) {
            text.push_str(&format!(", a{attribute} = {}", words::value(*figure)));
        }
    }
    text
}

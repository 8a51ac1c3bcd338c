//! The nodes in Graphviz's language.

use super::{arrows, fill, told};
use crate::sheet::Sheet;

/// A graph: a box for each node, an arrow for each figure that is a node.
pub fn graph(sheet: &Sheet) -> String {
    let mut text = "digraph sheet {\n  rankdir=RL;\n".to_string();
    text.push_str("  node [shape=box, style=\"rounded,filled\", fontname=\"sans-serif\"];\n");
    text.push_str("  edge [fontname=\"sans-serif\", fontsize=10];\n");
    for (node, kind) in (0..).zip(&sheet.nodes) {
        let (fill, told) = (fill(*kind), told(sheet, node));
        text.push_str(&format!(
            "  n{node} [label=\"n{node} k{kind}\", fillcolor=\"{fill}\", tooltip=\"{told}\"];\n"
        ));
    }
    for (from, attribute, to) in arrows(sheet) {
        text.push_str(&format!("  n{from} -> n{to} [label=\"a{attribute}\"];\n"));
    }
    text + "}\n"
}

//! The nodes as a picture.

use super::layout::{layout, without_circles, Layout, BOX, TURN};
use super::{arrows, fill, told};
use crate::sheet::Sheet;
use crate::words;

/// The room around the drawing, and the height of the line above it.
const MARGIN: i32 = 16;
const HEAD: i32 = 28;
/// The width of a kind's name and box in that line.
const KEY: i32 = 44;

/// A picture: a tree by the attribute that most nodes have a node for, and a dashed arrow for every other figure that is a node.
pub fn picture(sheet: &Sheet) -> String {
    let up = sheet.up();
    let arrows = arrows(sheet);
    let mut parents = vec![None; sheet.nodes.len()];
    for (from, _, to) in arrows.iter().filter(|arrow| Some(arrow.1) == up) {
        parents[usize::from(*from)] = Some(usize::from(*to));
    }
    let tree = without_circles(&parents);
    let laid = layout(&tree);
    let mut text = head(sheet, up, &laid);
    for line in tree_lines(&laid) {
        text.push_str(&line);
    }
    for (from, attribute, to) in arrows {
        let in_tree = Some(attribute) == up && tree[usize::from(from)] == Some(usize::from(to));
        if !in_tree {
            text.push_str(&arrow(&laid, from, attribute, to));
        }
    }
    for (node, kind) in (0..).zip(&sheet.nodes) {
        text.push_str(&boxed(sheet, &laid, node, *kind));
    }
    text + "</g>\n</svg>\n"
}

/// All before the nodes: the size, the styles, and the line above the drawing.
fn head(sheet: &Sheet, up: Option<u8>, laid: &Layout) -> String {
    let nodes = words::count(sheet.nodes.len() as u64, "node");
    let title = match up {
        Some(up) => format!("{nodes}; the lines are a{up}"),
        None => nodes,
    };
    let mut kinds = sheet.nodes.clone();
    kinds.sort_unstable();
    kinds.dedup();
    let title_width = title.chars().count() as i32 * 7 + 12;
    let head_width = title_width + kinds.len() as i32 * KEY;
    let width = laid.size.0.max(head_width) + 2 * MARGIN;
    let height = laid.size.1 + HEAD + 2 * MARGIN;
    let mut text = format!(
        "<svg xmlns=\"http://www.w3.org/2000/svg\" width=\"{width}\" height=\"{height}\" \
         viewBox=\"0 0 {width} {height}\" font-family=\"sans-serif\" font-size=\"12\">\n\
         <style>.l{{fill:none;stroke:#8a8f98}} .a{{fill:none;stroke:#b3541e;stroke-dasharray:4 3;opacity:.7}} \
         .b{{stroke:#5b6470}} .f{{fill:#f7f8fa;stroke:#c3c8d0}} .k{{fill:#5b6470;font-size:10px}}</style>\n\
         <defs><marker id=\"tip\" viewBox=\"0 0 8 8\" refX=\"7\" refY=\"4\" markerWidth=\"7\" markerHeight=\"7\" \
         orient=\"auto\"><path d=\"M0 0L8 4L0 8z\" fill=\"#b3541e\"/></marker></defs>\n\
         <rect width=\"100%\" height=\"100%\" fill=\"#ffffff\"/>\n\
         <text x=\"{MARGIN}\" y=\"{}\">{title}</text>\n",
        MARGIN + 12
    );
    for (place, kind) in (0..).zip(kinds) {
        let x = MARGIN + title_width + place * KEY;
        text.push_str(&format!(
            "<rect class=\"b\" x=\"{x}\" y=\"{}\" width=\"14\" height=\"14\" rx=\"3\" fill=\"{}\"/>\
             <text class=\"k\" x=\"{}\" y=\"{}\">k{kind}</text>\n",
            MARGIN + 1,
            fill(kind),
            x + 18,
            MARGIN + 12
        ));
    }
    text + &format!("<g transform=\"translate({MARGIN} {})\">\n", MARGIN + HEAD)
}

/// The frames of blocks, and a line from each node, or each block, to its parent.
fn tree_lines(laid: &Layout) -> Vec<String> {
    let mut lines = Vec::new();
    for block in &laid.blocks {
        let (x, y, width, height) = block.frame;
        lines.push(format!(
            "<rect class=\"f\" x=\"{x}\" y=\"{y}\" width=\"{width}\" height=\"{height}\" rx=\"6\"/>\n"
        ));
        if let Some(parent) = block.parent {
            lines.push(elbow(laid.places[parent], (x, y + height / 2)));
        }
    }
    for (node, parent) in laid.lines.iter().enumerate() {
        if let Some(parent) = parent {
            let (x, y) = laid.places[node];
            lines.push(elbow(laid.places[*parent], (x, y + BOX.1 / 2)));
        }
    }
    lines
}

/// A line from the right side of a parent's box to a point further right, with one step up or down before it.
fn elbow(parent: (i32, i32), (x, y): (i32, i32)) -> String {
    let (from, level) = (parent.0 + BOX.0, parent.1 + BOX.1 / 2);
    let turn = x - TURN;
    format!("<path class=\"l\" d=\"M{from} {level}H{turn}V{y}H{x}\"/>\n")
}

/// A dashed arrow for a figure that is not a line of the tree.
fn arrow(laid: &Layout, from: u16, attribute: u8, to: u16) -> String {
    let said = format!("n{from}.a{attribute} = n{to}");
    let (x, y) = laid.places[usize::from(from)];
    let (tx, ty) = laid.places[usize::from(to)];
    let (x, tx) = (x + BOX.0 / 2, tx + BOX.0 / 2);
    let path = if from == to {
        // A loop over the box.
        format!("M{} {y}c-6 -16 22 -16 16 0", x - 8)
    } else if y == ty {
        // A bow over what stands between.
        format!("M{x} {y}Q{} {} {tx} {ty}", (x + tx) / 2, y - 20)
    } else {
        let [y, ty] = if y < ty {
            [y + BOX.1, ty]
        } else {
            [y, ty + BOX.1]
        };
        format!("M{x} {y}Q{} {} {tx} {ty}", (x + tx) / 2 + 30, (y + ty) / 2)
    };
    format!(
        "<path class=\"a\" d=\"{path}\" marker-end=\"url(#tip)\"><title>{said}</title></path>\n"
    )
}

fn boxed(sheet: &Sheet, laid: &Layout, node: u16, kind: u8) -> String {
    let (x, y) = laid.places[usize::from(node)];
    let (width, height) = BOX;
    let (name, right, line) = (x + 7, x + width - 6, y + height / 2 + 4);
    format!(
        "<g><title>{}</title><rect class=\"b\" x=\"{x}\" y=\"{y}\" width=\"{width}\" height=\"{height}\" rx=\"5\" \
         fill=\"{}\"/><text x=\"{name}\" y=\"{line}\">n{node}</text>\
         <text class=\"k\" x=\"{right}\" y=\"{line}\" text-anchor=\"end\">k{kind}</text></g>\n",
        told(sheet, node),
        fill(kind)
    )
}

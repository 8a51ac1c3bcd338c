//! A sheet before it is written.

use oracle::expr::Attribute;
use oracle::values::{Base, Value};

use super::collisions::Colliding;
use super::rng::Rng;
use crate::write::{attribute, end, figure, forward, node, rule};

#[derive(Clone, Default)]
pub struct Draft {
    pub attributes: Vec<Attribute>,
    /// The kind of each node.
    pub nodes: Vec<u8>,
    pub figures: Vec<(u16, u8, Value)>,
    /// Kind, attribute, expression.
    pub rules: Vec<(u8, u8, Vec<u8>)>,
    pub forwards: Vec<Forward>,
    /// What its questions and stores can name, where the sheet is made for it.
    pub colliding: Option<Colliding>,
    /// Questions that the sheet is made for.
    pub questions: Vec<Vec<u8>>,
}

/// A forward, which stands among the rules.
#[derive(Clone)]
pub struct Forward {
    pub kind: u8,
    pub expr: Vec<u8>,
    /// How many rules stand before it; all of them, where there are fewer.
    pub rules_before: usize,
}

impl Draft {
    pub fn attribute(&mut self, result: Base, parameter: Base) -> u8 {
        self.attributes.push(Attribute { result, parameter });
        (self.attributes.len() - 1) as u8
    }

    pub fn node(&mut self, kind: u8) -> u16 {
        self.nodes.push(kind);
        (self.nodes.len() - 1) as u16
    }

    /// The commands, each with its operands.
    pub fn commands(&self) -> Vec<Vec<u8>> {
        let attributes = self
            .attributes
            .iter()
            .map(|declared| attribute(declared.result.code(), declared.parameter.code()));
        let nodes = self.nodes.iter().map(|kind| node(*kind));
        let figures = self.figures.iter().map(|(node, attribute, value)| {
            figure(*node, *attribute, i32::from_le_bytes(value.to_bytes()))
        });
        attributes
            .chain(nodes)
            .chain(figures)
            .chain(self.rules_and_forwards())
            .chain([end()])
            .collect()
    }

    /// The rules in their order, with each forward at its place among them.
    fn rules_and_forwards(&self) -> Vec<Vec<u8>> {
        let mut commands = Vec::new();
        for place in 0..=self.rules.len() {
            let here = |each: &&Forward| each.rules_before.min(self.rules.len()) == place;
            let forwards = self.forwards.iter().filter(here);
            commands.extend(forwards.map(|each| forward(each.kind, &each.expr)));
            if let Some((kind, attribute, expr)) = self.rules.get(place) {
                commands.push(rule(*kind, *attribute, expr));
            }
        }
        commands
    }

    /// Adds a forward at any place among the rules.
    pub fn forward(&mut self, rng: &mut Rng, kind: u8, expr: Vec<u8>) {
        let rules_before = rng.below(self.rules.len() + 1);
        self.forwards.push(Forward {
            kind,
            expr,
            rules_before,
        });
    }

    pub fn bytes(&self) -> Vec<u8> {
        self.commands().concat()
    }

    /// The bytes without the end command.
    pub fn open_bytes(&self) -> Vec<u8> {
        let mut bytes = self.bytes();
        bytes.pop();
        bytes
    }

    /// How many figures, rules and forwards it has.
    pub fn definitions(&self) -> usize {
        self.figures.len() + self.rules.len() + self.forwards.len()
    }

    fn has_figure(&self, node: u16, attribute: u8) -> bool {
        let mut figures = self.figures.iter();
        figures.any(|(n, a, _)| (*n, *a) == (node, attribute))
    }

    fn has_rule(&self, kind: u8, attribute: u8) -> bool {
        let mut rules = self.rules.iter();
        rules.any(|(k, a, _)| (*k, *a) == (kind, attribute))
    }

    pub fn has_forward(&self, kind: u8) -> bool {
        self.forwards.iter().any(|forward| forward.kind == kind)
    }

    /// Whether a rule or forward of a node's kind defines the pair.
    fn defined_by_kind(&self, node: u16, attribute: u8) -> bool {
        let kind = self.nodes[usize::from(node)];
        self.has_rule(kind, attribute) || self.has_forward(kind)
    }

    /// The declared pairs of a node and an attribute, node by node.
    fn pairs(&self) -> impl Iterator<Item = (u16, u8)> {
        let attributes = 0..self.attributes.len() as u8;
        let nodes = 0..self.nodes.len() as u16;
        nodes.flat_map(move |node| attributes.clone().map(move |attribute| (node, attribute)))
    }

    /// The pairs without definition, node by node.
    #[cfg(test)]
    pub fn gaps(&self) -> Vec<(u16, u8)> {
        let undefined = |node, attribute| {
            !self.has_figure(node, attribute) && !self.defined_by_kind(node, attribute)
        };
        self.pairs()
            .filter(|(node, attribute)| undefined(*node, *attribute))
            .collect()
    }

    /// Figures for the pairs without definition, and once in `times` for a pair with a rule or forward.
    pub fn complete(&mut self, rng: &mut Rng, times: usize) {
        for (node, attribute) in self.pairs() {
            let defined = self.defined_by_kind(node, attribute);
            if !self.has_figure(node, attribute) && (!defined || rng.once_in(times)) {
                let result = self.attributes[usize::from(attribute)].result;
                let value = base_value(rng, result, self.nodes.len());
                self.figures.push((node, attribute, value));
            }
        }
    }
}

/// A base value of a type.
pub fn base_value(rng: &mut Rng, base: Base, nodes: usize) -> Value {
    match base {
        Base::Unit => Value::Unit,
        Base::Bool => Value::Bool(rng.once_in(2)),
        Base::Int => Value::Int(int(rng)),
        Base::Node if nodes == 0 || rng.once_in(10) => Value::Node(None),
        Base::Node => Value::Node(Some(rng.below(nodes) as u16)),
    }
}

/// An Int, often at an end or small.
pub fn int(rng: &mut Rng) -> i32 {
    match rng.below(8) {
        0 => i32::MIN,
        1 => i32::MAX,
        2 => rng.pick(&[i32::MIN + 1, i32::MAX - 1, -1, 1 << 30, -(1 << 30)]),
        3 => rng.draw() as i32,
        _ => small_int(rng),
    }
}

/// An Int of which sums fit.
pub fn small_int(rng: &mut Rng) -> i32 {
    rng.below(9) as i32
}

#[cfg(test)]
mod tests {
    use super::*;

    /// The four ends of an unsigned number of four bytes: every Int of a case is drawn by `int`.
    #[test]
    fn ints_are_drawn_at_their_four_ends() {
        let mut rng = Rng::new(3, 0);
        let drawn: Vec<i32> = (0..1_000).map(|_| int(&mut rng)).collect();
        for end in [0, i32::MAX, i32::MIN, -1] {
            assert!(drawn.contains(&end), "{end}");
        }
    }
}

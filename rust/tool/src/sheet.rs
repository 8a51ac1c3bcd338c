//! What a sheet says: its declarations and definitions, each with the offset of its command.

use std::collections::HashMap;

use sofretu::{Stop, Type, Value};

use crate::expression::{Attribute, Expr, Kind, Part, Scope};

/// What the commands of a sheet say. Of a refused sheet it has what could be read.
#[derive(Clone, Debug, Default)]
pub struct Sheet {
    /// The attributes; none where a declaration is faulty.
    pub attributes: Vec<Option<Attribute>>,
    /// The kind of each node.
    pub nodes: Vec<u8>,
    /// The figures by node and attribute.
    pub figures: HashMap<(u16, u8), (Value, usize)>,
    /// The rules by kind and attribute.
    pub rules: HashMap<(u8, u8), (Expr, usize)>,
    /// The forwards by kind.
    pub forwards: HashMap<u8, (Expr, usize)>,
}

/// What defines an attribute of a node, and the offset of its command.
#[derive(Clone, Copy, Debug)]
pub enum Definition<'a> {
    /// The node's figure.
    Figure(Value, usize),
    /// The rule of its kind.
    Rule(&'a Expr, usize),
    /// The forward of its kind.
    Forward(&'a Expr, usize),
}

impl Sheet {
    /// The figure; where there is none, the rule; where there is neither, the forward.
    pub fn definition(&self, node: u16, attribute: u8) -> Option<Definition<'_>> {
        let kind = *self.nodes.get(usize::from(node))?;
        if let Some((figure, at)) = self.figures.get(&(node, attribute)) {
            return Some(Definition::Figure(*figure, *at));
        }
        if let Some((rule, at)) = self.rules.get(&(kind, attribute)) {
            return Some(Definition::Rule(rule, *at));
        }
        let (forward, at) = self.forwards.get(&kind)?;
        Some(Definition::Forward(forward, *at))
    }

    /// The pairs of node and attribute without definition, by attribute and then by node.
    pub fn gaps(&self) -> impl Iterator<Item = (u16, u8)> + '_ {
        let attributes = 0..self.attributes.len() as u8;
        attributes.flat_map(move |attribute| {
            let nodes = 0..self.nodes.len() as u16;
            let gap = move |node: &u16| self.definition(*node, attribute).is_none();
            nodes.filter(gap).map(move |node| (node, attribute))
        })
    }

    /// What an expression of this sheet can speak of.
    pub fn scope(&self, part: Part) -> Scope<'_> {
        Scope {
            attributes: &self.attributes,
            nodes: self.nodes.len(),
            part,
        }
    }

    /// A declared attribute of an accepted sheet.
    pub fn attribute(&self, number: u8) -> Option<Attribute> {
        *self.attributes.get(usize::from(number))?
    }

    /// The question that bytes write on this sheet.
    ///
    /// # Errors
    ///
    /// Stops 12 and 13.
    pub fn question(&self, bytes: &[u8]) -> Result<Expr, Stop> {
        let scope = self.scope(Part::Question);
        let question = Expr::read(bytes, scope).map_err(|_| Stop::QuestionForm)?;
        match question.kind(scope) {
            Ok(Kind::Base(_)) => Ok(question),
            _ => Err(Stop::QuestionType),
        }
    }

    /// The attribute that the most nodes have another node for: what a tree of the nodes goes by.
    pub fn up(&self) -> Option<u8> {
        let mut counts: HashMap<u8, usize> = HashMap::new();
        for ((_, attribute), (figure, _)) in &self.figures {
            let of_nodes = self.attribute(*attribute).map(|declared| declared.result);
            if of_nodes == Some(Type::Node) && *figure != Value::Node(None) {
                *counts.entry(*attribute).or_default() += 1;
            }
        }
        let most = counts
            .into_iter()
            .max_by_key(|(attribute, count)| (*count, u8::MAX - attribute));
        most.map(|(attribute, _)| attribute)
    }
}

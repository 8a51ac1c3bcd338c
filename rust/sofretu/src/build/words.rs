//! A draft's names for places in its bytes.

use std::fmt;

use calls::{Refusal, Stop};

use super::draft::Draft;
use super::expression::Expression;
use super::handles::{Attribute, Kind, Literal, Node, Source};
use super::write::Command;
use super::BuildError;

impl Draft {
    /// A refusal of the draft's bytes, with the draft's name for its place.
    pub(super) fn error(&self, refusal: Refusal) -> BuildError {
        let place = match refusal.stop {
            Stop::SheetLength => None,
            Stop::NoDefinition => self.pair(refusal.place),
            _ => self.command_at(refusal.place),
        };
        let place = place.unwrap_or_else(|| String::from("the sheet"));
        BuildError { refusal, place }
    }

    /// The words for the pair of a node and an attribute that has no definition.
    fn pair(&self, place: u64) -> Option<String> {
        let node = self.nodes.get(usize::try_from(place / 32).ok()?)?;
        let attribute = self.attributes.get(usize::try_from(place % 32).ok()?)?;
        Some(format!(
            "attribute `{}` of node `{}`, of {}, has no definition",
            attribute.name,
            node.name,
            self.kind_words(node.kind)
        ))
    }

    /// The words for the command at an offset.
    fn command_at(&self, place: u64) -> Option<String> {
        let place = usize::try_from(place).ok()?;
        let mut before = Vec::new();
        for command in self.commands() {
            if before.len() == place {
                return Some(self.command_words(&command));
            }
            self.write(&command, &mut before);
        }
        None
    }

    fn command_words(&self, command: &Command<'_>) -> String {
        match command {
            Command::Attribute(attribute) => format!("attribute `{}`", attribute.name),
            Command::Node(node) => {
                format!("node `{}` of {}", node.name, self.kind_words(node.kind))
            }
            Command::Figure(figure) => {
                let attribute = self.attribute_words(figure.attribute);
                let words = format!("figure of {attribute} of {}", self.node_words(figure.node));
                match (self.other_type(figure), figure.value) {
                    (Some(declared), value) => {
                        let (found, wanted) = (value.value_type(), declared.result);
                        format!("{words}, of type {found} where {attribute} is of type {wanted}")
                    }
                    (None, Literal::Node(Some(node))) => {
                        format!("{words}, with {}", self.node_words(node))
                    }
                    _ => words,
                }
            }
            Command::Rule(rule) => {
                let attribute = self.attribute_words(rule.attribute);
                let kind = self.kind_words(rule.kind);
                let handles = self.handles(&rule.expression);
                format!("rule for {attribute} of {kind}{handles}")
            }
            Command::Forward(forward) => {
                let handles = self.handles(&forward.expression);
                format!("forward of {}{handles}", self.kind_words(forward.kind))
            }
        }
    }

    /// Words for an expression with handles that are not this draft's.
    fn handles(&self, expression: &Expression) -> &'static str {
        if self.has(expression.source()) {
            ""
        } else {
            ", with a handle of another draft"
        }
    }

    fn attribute_words(&self, attribute: Attribute) -> String {
        let name = self.declared(attribute).map(|declared| &*declared.name);
        self.words("attribute", attribute.source, attribute.number, name)
    }

    fn node_words(&self, node: Node) -> String {
        let declared = self.nodes.get(usize::from(node.number));
        let name = declared.map(|declared| &*declared.name);
        self.words("node", node.source, node.number, name)
    }

    fn kind_words(&self, kind: Kind) -> String {
        let name = self.kinds.get(kind.place).map(|name| &**name);
        self.words("kind", kind.source, kind.place, name)
    }

    /// The words for something with a handle: its name, if it is this draft's, or its number.
    fn words(
        &self,
        what: &str,
        source: Source,
        number: impl fmt::Display,
        name: Option<&str>,
    ) -> String {
        match name {
            _ if !self.has(source) => format!("another draft's {what} {number}"),
            Some(name) => format!("{what} `{name}`"),
            None => format!("{what} {number}"),
        }
    }
}

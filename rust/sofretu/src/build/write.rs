//! The bytes of a draft.

use super::draft::{DeclaredAttribute, DeclaredNode, Draft, Figure, Forward, Rule};
use super::expression::Expression;
use super::handles::{
    node_bytes, Attribute, Kind, Literal, Node, Source, NO_ATTRIBUTE, NO_KIND, NO_NODE,
};

/// A command but the end.
pub(super) enum Command<'a> {
    Attribute(&'a DeclaredAttribute),
    Node(&'a DeclaredNode),
    Figure(&'a Figure),
    Rule(&'a Rule),
    Forward(&'a Forward),
}

impl Draft {
    /// The bytes of the sheet, accepted or not.
    #[must_use]
    pub fn bytes(&self) -> Vec<u8> {
        let mut sheet = Vec::new();
        for command in self.commands() {
            self.write(&command, &mut sheet);
        }
        sheet.push(0x5A);
        sheet
    }

    /// The commands in document 01's order. Of two definitions for one place the earlier call's comes first.
    pub(super) fn commands(&self) -> Vec<Command<'_>> {
        let mut figures: Vec<&Figure> = self.figures.iter().collect();
        figures.sort_by_key(|figure| {
            let attribute = self.attribute_number(figure.attribute);
            (self.node_number(figure.node), attribute)
        });
        let mut rules: Vec<&Rule> = self.rules.iter().collect();
        rules.sort_by_key(|rule| {
            let attribute = self.attribute_number(rule.attribute);
            (self.kind_number(rule.kind), attribute)
        });
        let mut forwards: Vec<&Forward> = self.forwards.iter().collect();
        forwards.sort_by_key(|forward| self.kind_number(forward.kind));
        let attributes = self.attributes.iter().map(Command::Attribute);
        attributes
            .chain(self.nodes.iter().map(Command::Node))
            .chain(figures.into_iter().map(Command::Figure))
            .chain(rules.into_iter().map(Command::Rule))
            .chain(forwards.into_iter().map(Command::Forward))
            .collect()
    }

    /// Writes a command after others.
    pub(super) fn write(&self, command: &Command<'_>, sheet: &mut Vec<u8>) {
        match command {
            Command::Attribute(DeclaredAttribute {
                result, parameter, ..
            }) => sheet.extend([0x41, result.code(), parameter.code()]),
            Command::Node(node) => sheet.extend([0x4E, self.kind_number(node.kind)]),
            Command::Figure(figure) => {
                let attribute = match self.other_type(figure) {
                    Some(_) => NO_ATTRIBUTE,
                    None => self.attribute_number(figure.attribute),
                };
                sheet.push(0x56);
                sheet.extend(self.node_number(figure.node).to_le_bytes());
                sheet.push(attribute);
                sheet.extend(self.word(figure.value));
            }
            Command::Rule(rule) => {
                let attribute = self.attribute_number(rule.attribute);
                sheet.extend([0x52, self.kind_number(rule.kind), attribute]);
                self.write_expression(&rule.expression, sheet);
            }
            Command::Forward(forward) => {
                sheet.extend([0x46, self.kind_number(forward.kind)]);
                self.write_expression(&forward.expression, sheet);
            }
        }
    }

    /// Writes the length of an expression and the expression; one with handles of another draft as a node that no sheet has. Two bytes can say
    /// 65,535 at most: a sheet with a longer expression is too long, whatever they say.
    fn write_expression(&self, expression: &Expression, sheet: &mut Vec<u8>) {
        let nowhere = Expression::from(Node::numbered(NO_NODE));
        let written = if self.has(expression.source()) {
            expression
        } else {
            &nowhere
        };
        let length = u16::try_from(written.bytes().len()).unwrap_or(u16::MAX);
        sheet.extend(length.to_le_bytes());
        sheet.extend(written.bytes());
    }

    /// The four bytes of a figure's value.
    fn word(&self, value: Literal) -> [u8; 4] {
        match value {
            Literal::Unit => [0; 4],
            Literal::Bool(truth) => u32::from(truth).to_le_bytes(),
            Literal::Int(number) => number.to_le_bytes(),
            Literal::Node(node) => {
                let own = node.map(|node| Node::numbered(self.node_number(node)));
                let [low, high] = node_bytes(own);
                [low, high, 0, 0]
            }
        }
    }

    /// Whether handles are this draft's.
    pub(super) fn has(&self, source: Source) -> bool {
        source.fits(self.source)
    }

    fn attribute_number(&self, attribute: Attribute) -> u8 {
        self.number(attribute.source, attribute.number, NO_ATTRIBUTE)
    }

    fn node_number(&self, node: Node) -> u16 {
        self.number(node.source, node.number, NO_NODE)
    }

    fn kind_number(&self, kind: Kind) -> u8 {
        self.number(kind.source, kind.number(), NO_KIND)
    }

    /// The number of a handle of this draft, and for one of another draft a number that stands for nothing.
    fn number<N>(&self, source: Source, number: N, nothing: N) -> N {
        if self.has(source) {
            number
        } else {
            nothing
        }
    }

    /// The declaration of an attribute of this draft.
    pub(super) fn declared(&self, attribute: Attribute) -> Option<&DeclaredAttribute> {
        let own = self.has(attribute.source).then_some(attribute.number)?;
        self.attributes.get(usize::from(own))
    }

    /// The declaration of a figure's attribute, where the figure is of another type.
    pub(super) fn other_type(&self, figure: &Figure) -> Option<&DeclaredAttribute> {
        let declared = self.declared(figure.attribute)?;
        (declared.result != figure.value.value_type()).then_some(declared)
    }
}

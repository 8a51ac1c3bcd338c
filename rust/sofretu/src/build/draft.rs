//! Drafts of sheets.

use std::sync::atomic::{AtomicU64, Ordering};

use super::expression::Expression;
use super::handles::{Attribute, Kind, Literal, Node, Source, NO_ATTRIBUTE, NO_NODE};
use super::BuildError;
use crate::sheet::Sheet;
use crate::value::Type;

/// A sheet in the making: what it declares and defines, in any order, each under a name of the owner's own.
///
/// Attributes and nodes are numbered in the order in which they are declared, and so are kinds. All else can come in any order and gives the
/// same bytes: figures are written by node and attribute, rules by kind and attribute, and then forwards by kind.
///
/// Nothing is refused before [`build`](Draft::build), and no call panics.
#[derive(Debug)]
#[must_use = "a draft is to be built"]
pub struct Draft {
    pub(super) source: Source,
    pub(super) attributes: Vec<DeclaredAttribute>,
    pub(super) kinds: Vec<String>,
    pub(super) nodes: Vec<DeclaredNode>,
    pub(super) figures: Vec<Figure>,
    pub(super) rules: Vec<Rule>,
    pub(super) forwards: Vec<Forward>,
}

#[derive(Debug)]
pub(super) struct DeclaredAttribute {
    pub name: String,
    pub result: Type,
    pub parameter: Type,
}

#[derive(Debug)]
pub(super) struct DeclaredNode {
    pub name: String,
    pub kind: Kind,
}

#[derive(Debug)]
pub(super) struct Figure {
    pub node: Node,
    pub attribute: Attribute,
    pub value: Literal,
}

#[derive(Debug)]
pub(super) struct Rule {
    pub kind: Kind,
    pub attribute: Attribute,
    pub expression: Expression,
}

#[derive(Debug)]
pub(super) struct Forward {
    pub kind: Kind,
    pub expression: Expression,
}

impl Draft {
    /// A draft with nothing in it.
    pub fn new() -> Draft {
        static DRAFTS: AtomicU64 = AtomicU64::new(0);
        Draft {
            source: Source::Draft(DRAFTS.fetch_add(1, Ordering::Relaxed)),
            attributes: Vec::new(),
            kinds: Vec::new(),
            nodes: Vec::new(),
            figures: Vec::new(),
            rules: Vec::new(),
            forwards: Vec::new(),
        }
    }

    /// Declares an attribute without parameter: its parameter's type is Unit.
    pub fn attribute(&mut self, name: impl Into<String>, result: Type) -> Attribute {
        self.attribute_with(name, result, Type::Unit)
    }

    /// Declares an attribute with a parameter.
    pub fn attribute_with(
        &mut self,
        name: impl Into<String>,
        result: Type,
        parameter: Type,
    ) -> Attribute {
        let number = u8::try_from(self.attributes.len()).unwrap_or(NO_ATTRIBUTE);
        let name = name.into();
        self.attributes.push(DeclaredAttribute {
            name,
            result,
            parameter,
        });
        let source = self.source;
        Attribute { number, source }
    }

    /// Names a kind of nodes. There can be 16.
    pub fn kind(&mut self, name: impl Into<String>) -> Kind {
        let (place, source) = (self.kinds.len(), self.source);
        self.kinds.push(name.into());
        Kind { place, source }
    }

    /// Declares a node of a kind.
    pub fn node(&mut self, name: impl Into<String>, kind: Kind) -> Node {
        let number = u16::try_from(self.nodes.len()).unwrap_or(NO_NODE);
        let (number, source) = (number.min(NO_NODE), self.source);
        let name = name.into();
        self.nodes.push(DeclaredNode { name, kind });
        Node { number, source }
    }

    /// Gives a node's attribute a figure, which holds for every parameter.
    pub fn figure(
        &mut self,
        node: Node,
        attribute: Attribute,
        value: impl Into<Literal>,
    ) -> &mut Draft {
        let value = value.into();
        self.figures.push(Figure {
            node,
            attribute,
            value,
        });
        self
    }

    /// Gives an attribute a rule, for the nodes of a kind that have no figure.
    pub fn rule(
        &mut self,
        kind: Kind,
        attribute: Attribute,
        expression: impl Into<Expression>,
    ) -> &mut Draft {
        let expression = expression.into();
        self.rules.push(Rule {
            kind,
            attribute,
            expression,
        });
        self
    }

    /// Gives the nodes of a kind a node that they have every attribute of for which they have neither figure nor rule.
    pub fn forward(&mut self, kind: Kind, expression: impl Into<Expression>) -> &mut Draft {
        let expression = expression.into();
        self.forwards.push(Forward { kind, expression });
        self
    }

    /// The sheet, if the library accepts its bytes.
    ///
    /// ```
    /// use sofretu::build::Draft;
    /// use sofretu::{Stop, Type};
    ///
    /// let mut draft = Draft::new();
    /// let dial = draft.attribute("dial", Type::Int);
    /// let car = draft.kind("car");
    /// draft.node("house 5, left", car);
    /// let error = draft.build().unwrap_err();
    /// assert_eq!(error.refusal.stop, Stop::NoDefinition);
    /// assert!(error
    ///     .to_string()
    ///     .starts_with("attribute `dial` of node `house 5, left`, of kind `car`, has no definition: stop 8 "));
    ///
    /// draft.rule(car, dial, true);
    /// let error = draft.build().unwrap_err();
    /// assert!(error.to_string().starts_with("rule for attribute `dial` of kind `car`: stop 7 at byte 5: "));
    /// ```
    ///
    /// # Errors
    ///
    /// The first of stops 1 to 8 that holds of the bytes, with the draft's own name for its place. Stop 2 cannot come: a draft writes whole
    /// commands in their order.
    ///
    /// A handle of another draft is no handle of this one, even where both have the same number. It is written as a number that no sheet
    /// declares, so that its command is refused, by stop 4, or by 6 where it is in an expression. A figure whose value is not of its
    /// attribute's type is written for an attribute that no sheet declares, and is refused by stop 4.
    pub fn build(&self) -> Result<Sheet, BuildError> {
        Sheet::load(self.bytes()).map_err(|refusal| self.error(refusal))
    }
}

impl Default for Draft {
    fn default() -> Draft {
        Draft::new()
    }
}

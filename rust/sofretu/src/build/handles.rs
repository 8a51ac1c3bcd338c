//! What a draft hands out to speak of its attributes, kinds and nodes, and the values that are written with them.

use crate::value::{Type, Value};

/// A number that no sheet declares an attribute with.
pub(super) const NO_ATTRIBUTE: u8 = u8::MAX;
/// A number that no sheet declares a node with, and that is not null's.
pub(super) const NO_NODE: u16 = u16::MAX - 1;
/// A number that no kind has.
pub(super) const NO_KIND: u8 = u8::MAX;

/// Which draft the handles in something are of.
#[derive(Clone, Copy, Debug, PartialEq, Eq, Hash)]
pub(super) enum Source {
    /// No draft: there are no handles, or they were made from numbers.
    Numbers,
    /// The draft with this number.
    Draft(u64),
    /// More drafts than one.
    Several,
}

impl Source {
    /// That of two things together.
    pub(super) fn and(self, other: Source) -> Source {
        match (self, other) {
            (source, Source::Numbers) | (Source::Numbers, source) => source,
            (one, other) if one == other => one,
            _ => Source::Several,
        }
    }

    /// Whether a draft can take it as its own.
    pub(super) fn fits(self, draft: Source) -> bool {
        self == Source::Numbers || self == draft
    }
}

/// An attribute, as [`Draft::attribute`](super::Draft::attribute) hands it out.
#[derive(Clone, Copy, Debug, PartialEq, Eq, Hash)]
pub struct Attribute {
    pub(super) number: u8,
    pub(super) source: Source,
}

impl Attribute {
    /// The attribute with a number, for questions to a sheet that was not drafted here.
    #[must_use]
    pub fn numbered(number: u8) -> Attribute {
        let source = Source::Numbers;
        Attribute { number, source }
    }

    /// Its number in the sheet.
    #[must_use]
    pub fn number(self) -> u8 {
        self.number
    }
}

/// A node, as [`Draft::node`](super::Draft::node) hands it out. It is an expression and the value of a figure, and so is an `Option<Node>`.
#[derive(Clone, Copy, Debug, PartialEq, Eq, Hash)]
pub struct Node {
    pub(super) number: u16,
    pub(super) source: Source,
}

impl Node {
    /// The node with a number, for questions to a sheet that was not drafted here. No sheet has a node above 1,023; 65,535, which stands for null,
    /// is made 65,534.
    #[must_use]
    pub fn numbered(number: u16) -> Node {
        let (number, source) = (number.min(NO_NODE), Source::Numbers);
        Node { number, source }
    }

    /// Its number in the sheet.
    #[must_use]
    pub fn number(self) -> u16 {
        self.number
    }
}

/// The Node value that is no node.
pub const NULL: Option<Node> = None;

/// A kind of nodes, as [`Draft::kind`](super::Draft::kind) hands it out.
#[derive(Clone, Copy, Debug, PartialEq, Eq, Hash)]
pub struct Kind {
    /// Its place among the draft's kinds, of which a sheet can have 16.
    pub(super) place: usize,
    pub(super) source: Source,
}

impl Kind {
    /// Its number in the sheet; 255, which is no kind's, where there are more kinds before it than a byte can count.
    #[must_use]
    pub fn number(self) -> u8 {
        u8::try_from(self.place).unwrap_or(NO_KIND)
    }
}

/// A base value, with its node by its handle: the value of a figure, or an expression.
///
/// It is made from `()`, a `bool`, an `i32`, a [`Node`], an `Option<Node>` or a [`Value`].
#[derive(Clone, Copy, Debug, PartialEq, Eq, Hash)]
pub enum Literal {
    /// The one value of type Unit.
    Unit,
    /// A truth value.
    Bool(bool),
    /// A number.
    Int(i32),
    /// A node, or null.
    Node(Option<Node>),
}

impl Literal {
    /// Its type.
    #[must_use]
    pub fn value_type(self) -> Type {
        match self {
            Literal::Unit => Type::Unit,
            Literal::Bool(_) => Type::Bool,
            Literal::Int(_) => Type::Int,
            Literal::Node(_) => Type::Node,
        }
    }

    /// Where its node is from.
    pub(super) fn source(self) -> Source {
        match self {
            Literal::Node(Some(node)) => node.source,
            _ => Source::Numbers,
        }
    }
}

/// The two bytes of a Node.
pub(super) fn node_bytes(node: Option<Node>) -> [u8; 2] {
    node.map_or(u16::MAX, Node::number).to_le_bytes()
}

impl From<()> for Literal {
    fn from((): ()) -> Literal {
        Literal::Unit
    }
}

impl From<bool> for Literal {
    fn from(truth: bool) -> Literal {
        Literal::Bool(truth)
    }
}

impl From<i32> for Literal {
    fn from(number: i32) -> Literal {
        Literal::Int(number)
    }
}

impl From<Node> for Literal {
    fn from(node: Node) -> Literal {
        Literal::Node(Some(node))
    }
}

impl From<Option<Node>> for Literal {
    fn from(node: Option<Node>) -> Literal {
        Literal::Node(node)
    }
}

/// A value that an answer brought, its node by number.
impl From<Value> for Literal {
    fn from(value: Value) -> Literal {
        match value {
            Value::Unit => Literal::Unit,
            Value::Bool(truth) => Literal::Bool(truth),
            Value::Int(number) => Literal::Int(number),
            Value::Node(node) => Literal::Node(node.map(Node::numbered)),
        }
    }
}

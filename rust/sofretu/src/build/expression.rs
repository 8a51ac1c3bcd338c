//! Expressions.

use std::ops::{Add, Not, Sub};

use super::handles::{node_bytes, Attribute, Literal, Node, Source};
use crate::value::Value;

/// An expression of a rule, a forward or a question, as its bytes.
///
/// It is made from a literal (`()`, a `bool`, an `i32`, a [`Node`], an `Option<Node>`, a [`Value`]), from [`this`] and [`parameter`], and from other
/// expressions: by [`Attribute::of`], by [`if_`], by the methods below, and by `+`, `-` and `!`, document 01's add, subtract and not.
///
/// ```
/// use sofretu::build::{if_, parameter, this, Attribute};
///
/// let (up, own, dial) = (Attribute::numbered(0), Attribute::numbered(1), Attribute::numbered(2));
///
/// // IF equal(own)(0) THEN up.dial ELSE own, each of this node.
/// let rule = if_(own.of(this()).equal(0), dial.of(up.of(this())), own.of(this()));
/// assert_eq!(rule.bytes()[..5], [0x20, 0x21, 0x21, 0x14, 1]);
///
/// // add(the parameter)(1).
/// let more = parameter() + 1;
/// assert_eq!(more.bytes(), [0x21, 0x21, 0x14, 4, 0x31, 0x12, 1, 0, 0, 0]);
/// ```
///
/// Its types are not checked here. The library checks them: of a rule and a forward when its sheet is checked, of a question when it is asked.
#[derive(Clone, Debug)]
#[must_use = "an expression does nothing by itself"]
pub struct Expression {
    bytes: Vec<u8>,
    source: Source,
}

/// A function of document 01, an expression by itself. Its discriminants are the document's codes.
///
/// All but `Not` take two arguments, one after the other, so `Function::Le.apply(4)` is a function too.
#[derive(Clone, Copy, Debug, PartialEq, Eq, Hash)]
#[non_exhaustive]
pub enum Function {
    /// Whether the first Int is at most the second.
    Le = 0,
    /// Whether two Ints are equal.
    Equal = 1,
    /// Whether two Nodes are the same. Null is the same as null alone.
    EqualNode = 2,
    /// The other Bool.
    Not = 3,
    /// The sum of two Ints.
    Add = 4,
    /// The first Int less the second.
    Subtract = 5,
}

impl Function {
    /// The function given its next argument.
    pub fn apply(self, argument: impl Into<Expression>) -> Expression {
        Expression::from(self).apply(argument)
    }
}

/// The node that a rule or a forward is worked out for. A question with it is refused, stop 12.
pub fn this() -> Expression {
    Expression::headed(&[0x30], [])
}

/// The parameter that a rule is worked out with. A forward with it is refused, stop 6, and a question with it, stop 12.
pub fn parameter() -> Expression {
    Expression::headed(&[0x31], [])
}

/// IF a condition THEN one expression ELSE the other. Only the one chosen is worked out.
pub fn if_(
    condition: impl Into<Expression>,
    then: impl Into<Expression>,
    otherwise: impl Into<Expression>,
) -> Expression {
    Expression::headed(&[0x20], [condition.into(), then.into(), otherwise.into()])
}

impl Attribute {
    /// This attribute of a node, for an attribute without parameter: its parameter is Unit.
    pub fn of(self, node: impl Into<Expression>) -> Expression {
        self.of_with(node, ())
    }

    /// This attribute of a node with a parameter.
    pub fn of_with(
        self,
        node: impl Into<Expression>,
        parameter: impl Into<Expression>,
    ) -> Expression {
        let mut of = Expression::headed(&[0x22, self.number], [node.into(), parameter.into()]);
        of.source = of.source.and(self.source);
        of
    }
}

impl Expression {
    /// A head with its operands, and the expressions inside it.
    fn headed<const N: usize>(head: &[u8], parts: [Expression; N]) -> Expression {
        let mut bytes = head.to_vec();
        let mut source = Source::Numbers;
        for part in parts {
            bytes.extend(part.bytes);
            source = source.and(part.source);
        }
        Expression { bytes, source }
    }

    /// This function given an argument.
    pub fn apply(self, argument: impl Into<Expression>) -> Expression {
        Expression::headed(&[0x21], [self, argument.into()])
    }

    /// Whether this Int is at most the other.
    pub fn le(self, other: impl Into<Expression>) -> Expression {
        Function::Le.apply(self).apply(other)
    }

    /// Whether this Int and the other are equal.
    pub fn equal(self, other: impl Into<Expression>) -> Expression {
        Function::Equal.apply(self).apply(other)
    }

    /// Whether this Node and the other are the same. Null is the same as null alone.
    pub fn equal_node(self, other: impl Into<Expression>) -> Expression {
        Function::EqualNode.apply(self).apply(other)
    }

    /// The bytes, of any number. A rule, a forward and a question of over 256 are refused.
    #[must_use]
    pub fn bytes(&self) -> &[u8] {
        &self.bytes
    }

    /// Where its handles are from.
    pub(super) fn source(&self) -> Source {
        self.source
    }
}

impl<E: Into<Expression>> Add<E> for Expression {
    type Output = Expression;

    fn add(self, other: E) -> Expression {
        Function::Add.apply(self).apply(other)
    }
}

impl<E: Into<Expression>> Sub<E> for Expression {
    type Output = Expression;

    fn sub(self, other: E) -> Expression {
        Function::Subtract.apply(self).apply(other)
    }
}

impl Not for Expression {
    type Output = Expression;

    fn not(self) -> Expression {
        Function::Not.apply(self)
    }
}

impl From<Literal> for Expression {
    fn from(literal: Literal) -> Expression {
        let mut bytes = Vec::with_capacity(5);
        match literal {
            Literal::Unit => bytes.push(0x10),
            Literal::Bool(truth) => bytes.extend([0x11, truth.into()]),
            Literal::Int(number) => {
                bytes.push(0x12);
                bytes.extend(number.to_le_bytes());
            }
            Literal::Node(node) => {
                bytes.push(0x13);
                bytes.extend(node_bytes(node));
            }
        }
        let source = literal.source();
        Expression { bytes, source }
    }
}

impl From<Function> for Expression {
    fn from(function: Function) -> Expression {
        Expression::headed(&[0x14, function as u8], [])
    }
}

/// What a literal is made from is an expression too.
macro_rules! literals {
    ($($rust:ty),*) => {
        $(impl From<$rust> for Expression {
            fn from(literal: $rust) -> Expression {
                Literal::from(literal).into()
            }
        })*
    };
}

literals!((), bool, i32, Node, Option<Node>, Value);

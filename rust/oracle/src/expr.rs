//! Document 01, "The sheet", where it speaks of expressions: their form, and their types by document 001's figures 5 and 8; document 02, F-7.

use crate::values::{self, Base, Function, Type, Value};

/// A rule's length is "1 to 256" and so is a forward's, and a question is "of 1 to 256 bytes".
pub const LONGEST: usize = 256;

/// An expression as a sheet or a question writes it.
#[derive(Clone, Debug, PartialEq)]
pub enum Expr {
    Literal(Value),
    /// Condition, first branch, second branch.
    If(Box<[Expr; 3]>),
    /// Function, argument.
    Apply(Box<[Expr; 2]>),
    /// Attribute number; node, parameter.
    Attribute(u8, Box<[Expr; 2]>),
    ThisNode,
    Parameter,
}

/// An attribute's declaration.
#[derive(Clone, Copy, Debug, PartialEq, Eq)]
pub struct Attribute {
    pub result: Base,
    pub parameter: Base,
}

/// What an expression is for, which settles whether it can speak of this node and of the parameter.
#[derive(Clone, Copy, Debug, PartialEq, Eq)]
pub enum Use {
    /// "Without 0x30 and 0x31".
    Question,
    /// It "may use 0x30 but not 0x31" (document 02, F-7).
    Forward,
    /// It can use both: "0x31 the parameter type".
    Rule { parameter: Base },
}

impl Use {
    /// The type of 0x30, where it can stand.
    fn this_node(self) -> Option<Type> {
        match self {
            Use::Question => None,
            Use::Forward | Use::Rule { .. } => Some(Type::Base(Base::Node)),
        }
    }

    /// The type of 0x31, where it can stand.
    fn parameter(self) -> Option<Type> {
        match self {
            Use::Question | Use::Forward => None,
            Use::Rule { parameter } => Some(Type::Base(parameter)),
        }
    }
}

/// What an expression can speak of.
#[derive(Clone, Copy, Debug)]
pub struct Scope<'a> {
    pub attributes: &'a [Attribute],
    pub nodes: usize,
    pub usage: Use,
}

impl Expr {
    /// The expression that `bytes` write from the first to the last of them.
    pub fn read(bytes: &[u8], scope: Scope) -> Option<Expr> {
        match read_head(bytes, scope)? {
            (expr, []) => Some(expr),
            _ => None,
        }
    }

    /// The type of the expression, where it has one. "Both branches of IF have one type, which may be a function type."
    pub fn type_of(&self, scope: Scope) -> Option<Type> {
        match self {
            Expr::Literal(Value::Function(function)) => Some(function.type_of()),
            Expr::Literal(value) => value.base().map(Type::Base),
            Expr::If(parts) => {
                let [condition, yes, no] = &**parts;
                let condition = condition.type_of(scope)?;
                let yes = yes.type_of(scope)?;
                let no = no.type_of(scope)?;
                (condition == Type::BOOL && yes == no).then_some(yes)
            }
            Expr::Apply(parts) => {
                let [function, argument] = &**parts;
                let Type::Function(from, to) = function.type_of(scope)? else {
                    return None;
                };
                (argument.type_of(scope)? == Type::Base(from)).then_some(*to)
            }
            Expr::Attribute(attribute, parts) => {
                let [node, parameter] = &**parts;
                let declared = scope.attributes[usize::from(*attribute)];
                let node = node.type_of(scope)?;
                let parameter = parameter.type_of(scope)?;
                (node == Type::Base(Base::Node) && parameter == Type::Base(declared.parameter))
                    .then_some(Type::Base(declared.result))
            }
            Expr::ThisNode => scope.usage.this_node(),
            Expr::Parameter => scope.usage.parameter(),
        }
    }

    /// How many expressions lie one inside the other.
    pub fn depth(&self) -> usize {
        1 + match self {
            Expr::If(parts) => deepest(&**parts),
            Expr::Apply(parts) | Expr::Attribute(_, parts) => deepest(&**parts),
            Expr::Literal(_) | Expr::ThisNode | Expr::Parameter => 0,
        }
    }
}

/// The depth of the deepest part.
fn deepest(parts: &[Expr]) -> usize {
    parts.iter().map(Expr::depth).max().unwrap_or(0)
}

/// The expression at the front of `bytes`, and the bytes after it. "Expressions are written head first."
fn read_head<'b>(bytes: &'b [u8], scope: Scope) -> Option<(Expr, &'b [u8])> {
    let (head, rest) = bytes.split_first()?;
    match head {
        0x10 => Some((Expr::Literal(Value::Unit), rest)),
        0x11 => {
            let (operand, rest) = take::<1>(rest)?;
            let value = match operand {
                [0] => Value::Bool(false),
                [1] => Value::Bool(true),
                _ => return None,
            };
            Some((Expr::Literal(value), rest))
        }
        0x12 => {
            let (operand, rest) = take::<4>(rest)?;
            let value = Value::Int(values::int(operand));
            Some((Expr::Literal(value), rest))
        }
        0x13 => {
            let (operand, rest) = take::<2>(rest)?;
            let value = values::node(u16::from_le_bytes(operand), scope.nodes)?;
            Some((Expr::Literal(value), rest))
        }
        0x14 => {
            let ([code], rest) = take::<1>(rest)?;
            let value = Value::Function(Function::from_code(code)?);
            Some((Expr::Literal(value), rest))
        }
        0x20 => {
            let (condition, rest) = read_head(rest, scope)?;
            let (yes, rest) = read_head(rest, scope)?;
            let (no, rest) = read_head(rest, scope)?;
            Some((Expr::If(Box::new([condition, yes, no])), rest))
        }
        0x21 => {
            let (function, rest) = read_head(rest, scope)?;
            let (argument, rest) = read_head(rest, scope)?;
            Some((Expr::Apply(Box::new([function, argument])), rest))
        }
        0x22 => {
            let ([attribute], rest) = take::<1>(rest)?;
            if usize::from(attribute) >= scope.attributes.len() {
                return None;
            }
            let (node, rest) = read_head(rest, scope)?;
            let (parameter, rest) = read_head(rest, scope)?;
            let parts = Box::new([node, parameter]);
            Some((Expr::Attribute(attribute, parts), rest))
        }
        0x30 => scope.usage.this_node().map(|_| (Expr::ThisNode, rest)),
        0x31 => scope.usage.parameter().map(|_| (Expr::Parameter, rest)),
        _ => None,
    }
}

/// The first `N` bytes, and the bytes after them.
pub fn take<const N: usize>(bytes: &[u8]) -> Option<([u8; N], &[u8])> {
    let front = bytes.get(..N)?;
    Some((front.try_into().ok()?, &bytes[N..]))
}

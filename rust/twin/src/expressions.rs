//! The form and the type of expressions (document 01, "The sheet"; document 02, F-7), read in one recursion.

use crate::bytes::two;
use crate::values::{Base, NULL};

/// The greatest length of an expression in bytes.
pub const LONGEST: usize = 256;

/// A type by its number: 0 for none, 1 and a base type's code for that type, and for a function from p to r four times r's
/// number, p's code and one.
#[derive(Clone, Copy, PartialEq, Eq)]
pub struct Type(u8);

impl Type {
    const NONE: Type = Type(0);
    const BOOL: Type = Type::base(Base::Bool);
    const NODE: Type = Type::base(Base::Node);

    pub const fn base(base: Base) -> Type {
        Type(1 + base as u8)
    }

    const fn function(from: Base, to: Type) -> Type {
        Type(4 * to.0 + 1 + from as u8)
    }

    /// The type of the function with a code, where there is one.
    fn of_function(code: u8) -> Option<Type> {
        const COMPARES: Type = Type::function(Base::Int, Type::function(Base::Int, Type::BOOL));
        const SAME: Type = Type::function(Base::Node, Type::function(Base::Node, Type::BOOL));
        const NEGATES: Type = Type::function(Base::Bool, Type::BOOL);
        const COMPUTES: Type =
            Type::function(Base::Int, Type::function(Base::Int, Type::base(Base::Int)));
        match code {
            0 | 1 => Some(COMPARES),
            2 => Some(SAME),
            3 => Some(NEGATES),
            4 | 5 => Some(COMPUTES),
            _ => None,
        }
    }

    pub fn is_base(self) -> bool {
        (1..=4).contains(&self.0)
    }

    /// The type of an IF with this condition.
    fn chooses(self, yes: Type, no: Type) -> Type {
        if self == Type::BOOL && yes == no {
            yes
        } else {
            Type::NONE
        }
    }

    /// The type of this function's application.
    fn applied(self, argument: Type) -> Type {
        match self.0.checked_sub(5) {
            Some(above) if above % 4 + 1 == argument.0 => Type(above / 4 + 1),
            _ => Type::NONE,
        }
    }
}

/// What an expression can speak of.
pub struct Scope<'a> {
    /// The sheet, whose first commands declare the attributes.
    pub sheet: &'a [u8],
    pub attributes: usize,
    pub nodes: usize,
    /// Whether 0x30 can stand: in a rule or forward.
    pub this_node: bool,
    /// The type of 0x31, where it can stand: in a rule.
    pub parameter: Option<Base>,
}

impl Scope<'_> {
    /// The type of the expression that the bytes write from the first to the last of them. The width of each expression in it is
    /// noted, less one, at the place of its first byte; there is such a place for each byte of an expression that is not too long.
    pub fn read_whole(&self, bytes: &[u8], widths: &mut [u8]) -> Option<Type> {
        if bytes.len() > LONGEST {
            return None;
        }
        match self.read(bytes, &mut widths[..bytes.len()])? {
            (typ, []) => Some(typ),
            _ => None,
        }
    }

    /// The type of the expression at the front of the bytes, and the bytes after it, with the widths noted. The bytes and the
    /// widths' places end together.
    fn read<'b>(&self, bytes: &'b [u8], widths: &mut [u8]) -> Option<(Type, &'b [u8])> {
        let (typ, rest) = self.read_by_head(bytes, widths)?;
        widths[widths.len() - bytes.len()] = (bytes.len() - rest.len() - 1) as u8;
        Some((typ, rest))
    }

    /// As `read`, but for the width of the whole. An ill-typed expression is read on, since a fault of form goes before a fault of
    /// type.
    #[inline(always)]
    fn read_by_head<'b>(&self, bytes: &'b [u8], widths: &mut [u8]) -> Option<(Type, &'b [u8])> {
        let (head, rest) = bytes.split_first()?;
        match head {
            0x10 => Some((Type::base(Base::Unit), rest)),
            0x11 => {
                let (operand, rest) = rest.split_first()?;
                (*operand < 2).then_some((Type::BOOL, rest))
            }
            0x12 => Some((Type::base(Base::Int), rest.get(4..)?)),
            0x13 => {
                let (operand, rest) = rest.split_first_chunk()?;
                let node = u16::from_le_bytes(*operand);
                (usize::from(node) < self.nodes || node == NULL).then_some((Type::NODE, rest))
            }
            0x14 => {
                let (operand, rest) = rest.split_first()?;
                Some((Type::of_function(*operand)?, rest))
            }
            0x20 => {
                let (condition, rest) = self.read(rest, widths)?;
                let (yes, rest) = self.read(rest, widths)?;
                let (no, rest) = self.read(rest, widths)?;
                Some((condition.chooses(yes, no), rest))
            }
            0x21 => {
                let (function, rest) = self.read(rest, widths)?;
                let (argument, rest) = self.read(rest, widths)?;
                Some((function.applied(argument), rest))
            }
            0x22 => {
                let (attribute, rest) = rest.split_first()?;
                if usize::from(*attribute) >= self.attributes {
                    return None;
                }
                let (node, rest) = self.read(rest, widths)?;
                let (parameter, rest) = self.read(rest, widths)?;
                Some((self.attribute(*attribute, node, parameter), rest))
            }
            0x30 => self.this_node.then_some((Type::NODE, rest)),
            0x31 => self.parameter.map(|base| (Type::base(base), rest)),
            _ => None,
        }
    }

    /// The type of an attribute of a node.
    fn attribute(&self, attribute: u8, node: Type, parameter: Type) -> Type {
        let [result, expected] = two(self.sheet, 3 * usize::from(attribute) + 1).to_le_bytes();
        if node == Type::NODE && parameter == Type::base(Base::of(expected)) {
            Type::base(Base::of(result))
        } else {
            Type::NONE
        }
    }
}

//! Values and their types.

use std::error::Error;
use std::fmt;

/// Null where a Node is written as a number.
const NULL: u16 = 65_535;

/// No sheet declares a node with this number or a greater one.
const NODES: u16 = 1_024;

/// A base type of document 01.
#[derive(Clone, Copy, Debug, PartialEq, Eq, PartialOrd, Ord, Hash)]
pub enum Type {
    /// The type with one value.
    Unit,
    /// Truth values.
    Bool,
    /// Whole numbers of 32 bits.
    Int,
    /// Nodes of a sheet, and null.
    Node,
}

impl Type {
    /// Document 01's code: 0 Unit, 1 Bool, 2 Int, 3 Node.
    #[must_use]
    pub fn code(self) -> u8 {
        self as u8
    }

    /// The type with a code: 0 to 3 have one.
    #[must_use]
    pub fn from_code(code: u8) -> Option<Type> {
        let types = [Type::Unit, Type::Bool, Type::Int, Type::Node];
        types.get(usize::from(code)).copied()
    }
}

impl fmt::Display for Type {
    fn fmt(&self, f: &mut fmt::Formatter<'_>) -> fmt::Result {
        f.pad(match self {
            Type::Unit => "Unit",
            Type::Bool => "Bool",
            Type::Int => "Int",
            Type::Node => "Node",
        })
    }
}

/// A base value.
///
/// It is made from what it stands for, and gives it back if it is of that type:
///
/// ```
/// use sofretu::{Type, Value, WrongType};
///
/// assert_eq!(Value::from(700), Value::Int(700));
/// assert_eq!(i32::try_from(Value::Int(700)), Ok(700));
/// assert_eq!(Option::<u16>::try_from(Value::Node(None)), Ok(None));
///
/// let wrong: WrongType = bool::try_from(Value::Int(1)).unwrap_err();
/// assert_eq!((wrong.wanted, wrong.found), (Type::Bool, Type::Int));
/// assert_eq!(wrong.to_string(), "the value is an Int and no Bool");
/// ```
#[derive(Clone, Copy, Debug, PartialEq, Eq, Hash)]
pub enum Value {
    /// The one value of type Unit.
    Unit,
    /// A truth value.
    Bool(bool),
    /// A number. A sum or difference outside its range has no value, and is [`Stop::Overflow`](crate::Stop::Overflow).
    Int(i32),
    /// A declared node by its number, or null.
    Node(Option<u16>),
}

impl Value {
    /// The type.
    #[must_use]
    pub fn value_type(self) -> Type {
        match self {
            Value::Unit => Type::Unit,
            Value::Bool(_) => Type::Bool,
            Value::Int(_) => Type::Int,
            Value::Node(_) => Type::Node,
        }
    }

    /// The value that the type and value fields of an answer stand for.
    pub(crate) fn from_fields(code: i64, number: i64) -> Option<Value> {
        match Type::from_code(u8::try_from(code).ok()?)? {
            Type::Unit => (number == 0).then_some(Value::Unit),
            Type::Bool => matches!(number, 0 | 1).then_some(Value::Bool(number == 1)),
            Type::Int => i32::try_from(number).ok().map(Value::Int),
            Type::Node => match u16::try_from(number).ok()? {
                NULL => Some(Value::Node(None)),
                node => (node < NODES).then_some(Value::Node(Some(node))),
            },
        }
    }

    /// The value of the type with this code that has this four-byte form.
    pub(crate) fn from_word(code: u8, word: [u8; 4]) -> Option<Value> {
        let number = match Type::from_code(code)? {
            Type::Int => i32::from_le_bytes(word).into(),
            _ => u32::from_le_bytes(word).into(),
        };
        Value::from_fields(code.into(), number)
    }

    /// The number that it is in an answer.
    pub(crate) fn number(self) -> i64 {
        match self {
            Value::Unit => 0,
            Value::Bool(truth) => truth.into(),
            Value::Int(number) => number.into(),
            Value::Node(node) => node.unwrap_or(NULL).into(),
        }
    }
}

/// `unit`, `true`, `700`, `node 3`, `null`.
impl fmt::Display for Value {
    fn fmt(&self, f: &mut fmt::Formatter<'_>) -> fmt::Result {
        match self {
            Value::Unit => f.pad("unit"),
            Value::Bool(truth) => truth.fmt(f),
            Value::Int(number) => number.fmt(f),
            Value::Node(Some(node)) => f.pad(&format!("node {node}")),
            Value::Node(None) => f.pad("null"),
        }
    }
}

/// A value that was wanted of one type is of another.
#[derive(Clone, Copy, Debug, PartialEq, Eq, Hash)]
#[non_exhaustive]
pub struct WrongType {
    /// The type that was wanted.
    pub wanted: Type,
    /// The value's type.
    pub found: Type,
}

impl fmt::Display for WrongType {
    fn fmt(&self, f: &mut fmt::Formatter<'_>) -> fmt::Result {
        let WrongType { wanted, found } = self;
        let article = if *found == Type::Int { "an" } else { "a" };
        write!(f, "the value is {article} {found} and no {wanted}")
    }
}

impl Error for WrongType {}

/// Conversions between the values of one type and what they stand for in Rust.
macro_rules! stands_for {
    ($typ:ident, $rust:ty, $value:pat => $inner:expr, $from:pat => $made:expr) => {
        impl From<$rust> for Value {
            fn from($from: $rust) -> Value {
                $made
            }
        }

        impl TryFrom<Value> for $rust {
            type Error = WrongType;

            fn try_from(value: Value) -> Result<$rust, WrongType> {
                match value {
                    $value => Ok($inner),
                    _ => Err(WrongType {
                        wanted: Type::$typ,
                        found: value.value_type(),
                    }),
                }
            }
        }
    };
}

stands_for!(Unit, (), Value::Unit => (), () => Value::Unit);
stands_for!(Bool, bool, Value::Bool(truth) => truth, truth => Value::Bool(truth));
stands_for!(Int, i32, Value::Int(number) => number, number => Value::Int(number));
stands_for!(Node, Option<u16>, Value::Node(node) => node, node => Value::Node(node));

#[cfg(test)]
mod tests {
    use super::*;

    const EACH: [Value; 6] = [
        Value::Unit,
        Value::Bool(true),
        Value::Int(-700),
        Value::Node(Some(3)),
        Value::Node(None),
        Value::Bool(false),
    ];

    #[test]
    fn a_value_gives_back_what_it_was_made_from_and_nothing_else() {
        for value in EACH {
            let back = [
                <()>::try_from(value).map(Value::from),
                bool::try_from(value).map(Value::from),
                i32::try_from(value).map(Value::from),
                Option::<u16>::try_from(value).map(Value::from),
            ];
            for (code, back) in (0..).zip(back) {
                let wanted = Type::from_code(code).expect("a type");
                let found = value.value_type();
                if wanted == found {
                    assert_eq!(back, Ok(value));
                } else {
                    assert_eq!(back, Err(WrongType { wanted, found }));
                }
            }
        }
    }

    #[test]
    fn a_value_is_shown_as_a_person_writes_it() {
        let shown = EACH.map(|value| value.to_string());
        assert_eq!(shown, ["unit", "true", "-700", "node 3", "null", "false"]);
        assert_eq!(
            format!("{:>8}|{:<6}|", Value::Node(Some(12)), Value::Int(5)),
            " node 12|5     |"
        );
    }

    #[test]
    fn types_have_the_codes_of_document_01() {
        for (code, name) in (0..).zip(["Unit", "Bool", "Int", "Node"]) {
            let typ = Type::from_code(code).expect("a type");
            assert_eq!((typ.code(), typ.to_string().as_str()), (code, name));
        }
        assert_eq!(Type::from_code(4), None);
    }
}

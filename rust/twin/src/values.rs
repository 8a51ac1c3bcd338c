//! Document 01, "Values and functions"; document 02, F-4.

use crate::bytes::int;

/// Null, where a Node stands.
pub const NULL: u16 = 65_535;

/// The base types.
#[derive(Clone, Copy, Debug, PartialEq, Eq)]
pub enum Base {
    Unit,
    Bool,
    Int,
    Node,
}

impl Base {
    /// The base type of a code that a sheet's check has let by.
    pub fn of(code: u8) -> Base {
        match code {
            0 => Base::Unit,
            1 => Base::Bool,
            2 => Base::Int,
            _ => Base::Node,
        }
    }

    /// The type's code.
    pub fn code(self) -> u8 {
        self as u8
    }

    /// Whether a number is the four-byte form of a value of this type.
    pub fn has(self, word: u32, nodes: usize) -> bool {
        match self {
            Base::Unit => word == 0,
            Base::Bool => word < 2,
            Base::Int => true,
            Base::Node => (word as usize) < nodes || word == u32::from(NULL),
        }
    }

    /// The value of this type with a four-byte form.
    pub fn value(self, word: u32) -> Value {
        match self {
            Base::Unit => Value::Unit,
            Base::Bool => Value::Bool(word == 1),
            Base::Int => Value::Int(int(word)),
            Base::Node => Value::Node(word as u16),
        }
    }
}

/// The functions by name.
#[derive(Clone, Copy, Debug, PartialEq, Eq)]
pub enum Function {
    Le,
    EqualInt,
    EqualNode,
    Not,
    Add,
    Subtract,
}

impl Function {
    /// The function of a code that a check of form has let by.
    pub fn of(code: u8) -> Function {
        match code {
            0 => Function::Le,
            1 => Function::EqualInt,
            2 => Function::EqualNode,
            3 => Function::Not,
            4 => Function::Add,
            _ => Function::Subtract,
        }
    }
}

/// A function of two arguments holding its first.
#[derive(Clone, Copy, Debug, PartialEq, Eq)]
pub enum Holding {
    Le(i32),
    EqualInt(i32),
    EqualNode(u16),
    Add(i32),
    Subtract(i32),
}

/// A value.
#[derive(Clone, Copy, Debug, PartialEq, Eq)]
pub enum Value {
    Unit,
    Bool(bool),
    Int(i32),
    Node(u16),
    Function(Function),
    Holding(Holding),
}

impl Value {
    /// The result of giving an argument to this function, which typing has found fit for it; none where a sum or difference lies outside
    /// Int.
    pub fn apply(self, argument: Value) -> Option<Value> {
        Some(match (self, argument) {
            (Value::Function(function), Value::Int(x)) => Value::Holding(match function {
                Function::Le => Holding::Le(x),
                Function::EqualInt => Holding::EqualInt(x),
                Function::Add => Holding::Add(x),
                Function::Subtract => Holding::Subtract(x),
                Function::EqualNode | Function::Not => unreachable!("ill typed"),
            }),
            (Value::Function(Function::EqualNode), Value::Node(x)) => {
                Value::Holding(Holding::EqualNode(x))
            }
            (Value::Function(Function::Not), Value::Bool(x)) => Value::Bool(!x),
            (Value::Holding(holding), Value::Int(y)) => match holding {
                Holding::Le(x) => Value::Bool(x <= y),
                Holding::EqualInt(x) => Value::Bool(x == y),
                Holding::Add(x) => Value::Int(x.checked_add(y)?),
                Holding::Subtract(x) => Value::Int(x.checked_sub(y)?),
                Holding::EqualNode(_) => unreachable!("ill typed"),
            },
            (Value::Holding(Holding::EqualNode(x)), Value::Node(y)) => Value::Bool(x == y),
            _ => unreachable!("ill typed"),
        })
    }

    /// The four-byte form of a base value.
    pub fn word(self) -> u32 {
        match self {
            Value::Unit => 0,
            Value::Bool(x) => u32::from(x),
            Value::Int(x) => x as u32,
            Value::Node(x) => u32::from(x),
            Value::Function(_) | Value::Holding(_) => unreachable!("a function has no bytes"),
        }
    }

    /// The code of a base value's type.
    pub fn type_code(self) -> u8 {
        match self {
            Value::Unit => 0,
            Value::Bool(_) => 1,
            Value::Int(_) => 2,
            Value::Node(_) => 3,
            Value::Function(_) | Value::Holding(_) => unreachable!("a function has no code"),
        }
    }

    /// A base value as an answer gives it.
    pub fn number(self) -> i64 {
        match self {
            Value::Int(x) => i64::from(x),
            other => i64::from(other.word()),
        }
    }
}

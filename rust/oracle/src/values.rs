//! Document 01, "Values and functions"; document 02, F-3 and F-4.

/// "65,535 for null": in the four bytes of a Node, in the two of a Node literal, and in an answer.
pub const NULL: u16 = 65_535;

/// The base types, whose codes are 0 to 3 in this order.
#[derive(Clone, Copy, Debug, PartialEq, Eq, Hash)]
pub enum Base {
    Unit,
    Bool,
    Int,
    Node,
}

impl Base {
    pub const ALL: [Base; 4] = [Base::Unit, Base::Bool, Base::Int, Base::Node];

    pub fn from_code(code: u8) -> Option<Base> {
        Base::ALL.get(usize::from(code)).copied()
    }

    pub fn code(self) -> u8 {
        match self {
            Base::Unit => 0,
            Base::Bool => 1,
            Base::Int => 2,
            Base::Node => 3,
        }
    }
}

/// The type of an expression: a base type, or a function from a base type. No function takes more than two arguments, so what one
/// leaves is one of a few types.
#[derive(Clone, Copy, Debug, PartialEq, Eq)]
pub enum Type {
    Base(Base),
    Function(Base, &'static Type),
}

impl Type {
    pub const BOOL: Type = Type::Base(Base::Bool);
    pub const INT: Type = Type::Base(Base::Int);
    pub const INT_TO_BOOL: Type = Type::Function(Base::Int, &Type::BOOL);
    pub const INT_TO_INT: Type = Type::Function(Base::Int, &Type::INT);
    pub const NODE_TO_BOOL: Type = Type::Function(Base::Node, &Type::BOOL);
}

/// The functions, whose codes are 0 to 5 in this order.
#[derive(Clone, Copy, Debug, PartialEq, Eq, Hash)]
pub enum Function {
    Le,
    EqualInt,
    EqualNode,
    Not,
    Add,
    Subtract,
}

impl Function {
    pub const ALL: [Function; 6] = [
        Function::Le,
        Function::EqualInt,
        Function::EqualNode,
        Function::Not,
        Function::Add,
        Function::Subtract,
    ];

    pub fn from_code(code: u8) -> Option<Function> {
        Function::ALL.get(usize::from(code)).copied()
    }

    pub fn type_of(self) -> Type {
        match self {
            Function::Le | Function::EqualInt => Type::Function(Base::Int, &Type::INT_TO_BOOL),
            Function::EqualNode => Type::Function(Base::Node, &Type::NODE_TO_BOOL),
            Function::Not => Type::Function(Base::Bool, &Type::BOOL),
            Function::Add | Function::Subtract => Type::Function(Base::Int, &Type::INT_TO_INT),
        }
    }
}

/// A function of two arguments holding its first: "le(4) is itself a function value".
#[derive(Clone, Copy, Debug, PartialEq, Eq, Hash)]
pub enum Holding {
    Le(i32),
    EqualInt(i32),
    EqualNode(Option<u16>),
    Add(i32),
    Subtract(i32),
}

/// A value. A Node is `None` for null.
#[derive(Clone, Copy, Debug, PartialEq, Eq, Hash)]
pub enum Value {
    Unit,
    Bool(bool),
    Int(i32),
    Node(Option<u16>),
    Function(Function),
    Holding(Holding),
}

/// "An add or subtract whose exact result lies outside Int has no value" (document 02, F-4).
#[derive(Clone, Copy, Debug, PartialEq, Eq)]
pub struct Overflow;

impl Value {
    /// The result of giving `argument` to this function, which typing has found fit for it. "All but 3 take their arguments one after the
    /// other", and "null equals only null".
    pub fn apply(self, argument: Value) -> Result<Value, Overflow> {
        Ok(match (self, argument) {
            (Value::Function(Function::Le), Value::Int(x)) => Value::Holding(Holding::Le(x)),
            (Value::Function(Function::EqualInt), Value::Int(x)) => {
                Value::Holding(Holding::EqualInt(x))
            }
            (Value::Function(Function::EqualNode), Value::Node(x)) => {
                Value::Holding(Holding::EqualNode(x))
            }
            (Value::Function(Function::Not), Value::Bool(x)) => Value::Bool(!x),
            (Value::Function(Function::Add), Value::Int(x)) => Value::Holding(Holding::Add(x)),
            (Value::Function(Function::Subtract), Value::Int(x)) => {
                Value::Holding(Holding::Subtract(x))
            }
            (Value::Holding(Holding::Le(x)), Value::Int(y)) => Value::Bool(x <= y),
            (Value::Holding(Holding::EqualInt(x)), Value::Int(y)) => Value::Bool(x == y),
            (Value::Holding(Holding::EqualNode(x)), Value::Node(y)) => Value::Bool(x == y),
            (Value::Holding(Holding::Add(x)), Value::Int(y)) => fit(i64::from(x) + i64::from(y))?,
            (Value::Holding(Holding::Subtract(x)), Value::Int(y)) => {
                fit(i64::from(x) - i64::from(y))?
            }
            (function, argument) => unreachable!("ill typed: {function:?} of {argument:?}"),
        })
    }

    /// The base type of a base value; `None` for a function.
    pub fn base(self) -> Option<Base> {
        match self {
            Value::Unit => Some(Base::Unit),
            Value::Bool(_) => Some(Base::Bool),
            Value::Int(_) => Some(Base::Int),
            Value::Node(_) => Some(Base::Node),
            Value::Function(_) | Value::Holding(_) => None,
        }
    }

    /// The value of type `base` that four bytes stand for, on a sheet of `nodes` nodes. "No other bytes are values."
    pub fn from_bytes(base: Base, bytes: [u8; 4], nodes: usize) -> Option<Value> {
        let word = u32::from_le_bytes(bytes);
        match base {
            Base::Unit => (word == 0).then_some(Value::Unit),
            Base::Bool => (word <= 1).then_some(Value::Bool(word == 1)),
            Base::Int => Some(Value::Int(int(bytes))),
            Base::Node => node(u16::try_from(word).ok()?, nodes),
        }
    }

    /// The four bytes of a base value.
    pub fn to_bytes(self) -> [u8; 4] {
        match self {
            Value::Unit => [0; 4],
            Value::Bool(x) => u32::from(x).to_le_bytes(),
            Value::Int(x) => x.to_le_bytes(),
            Value::Node(x) => u32::from(x.unwrap_or(NULL)).to_le_bytes(),
            Value::Function(_) | Value::Holding(_) => unreachable!("a function has no bytes"),
        }
    }

    /// A base value as an answer gives it ("Sheet L and its questions", of what the report program prints).
    pub fn number(self) -> i64 {
        match self {
            Value::Int(x) => i64::from(x),
            other => i64::from(u32::from_le_bytes(other.to_bytes())),
        }
    }
}

/// The Int of four bytes. "With u the unsigned number of the four bytes, the Int is (u + 2,147,483,648) modulo 4,294,967,296, less
/// 2,147,483,648" (document 02, F-3).
pub fn int(bytes: [u8; 4]) -> i32 {
    let u = i64::from(u32::from_le_bytes(bytes));
    ((u + 2_147_483_648) % 4_294_967_296 - 2_147_483_648) as i32
}

/// The Node value written as `number`, on a sheet of `nodes` nodes.
pub fn node(number: u16, nodes: usize) -> Option<Value> {
    match number {
        NULL => Some(Value::Node(None)),
        declared if usize::from(declared) < nodes => Some(Value::Node(Some(declared))),
        _ => None,
    }
}

/// The Int of an exact result, which is "−2,147,483,648 to 2,147,483,647" or none.
fn fit(exact: i64) -> Result<Value, Overflow> {
    match i32::try_from(exact) {
        Ok(int) => Ok(Value::Int(int)),
        Err(_) => Err(Overflow),
    }
}

#[cfg(test)]
mod tests {
    use super::int;

    /// "Every four bytes read as the same Int as today" (document 02, F-3): in two's complement, which `i32` has.
    #[test]
    fn an_int_is_read_in_twos_complement() {
        let ends = [0, i32::MAX as u32, i32::MIN as u32, u32::MAX];
        let beside = ends.map(|end| [end.wrapping_sub(1), end, end.wrapping_add(1)]);
        let spread = (0..=u32::MAX).step_by(65_537);
        for u in beside.into_iter().flatten().chain(spread) {
            let bytes = u.to_le_bytes();
            assert_eq!(int(bytes), i32::from_le_bytes(bytes), "{u}");
        }
    }
}

//! Expressions: their form, read from bytes, and their types. A fault is told in words.

use sofretu::{Type, Value};

/// The longest expression of a rule, a forward or a question in bytes.
pub const LONGEST: usize = 256;

/// The functions by their codes.
pub const FUNCTIONS: [&str; 6] = ["le", "equal", "equal_node", "not", "add", "subtract"];

/// Null where a Node is written as a number.
pub const NULL: u16 = 65_535;

/// An attribute's declaration.
#[derive(Clone, Copy, Debug, PartialEq, Eq)]
pub struct Attribute {
    /// The type of its values.
    pub result: Type,
    /// The type of its parameter.
    pub parameter: Type,
}

/// An expression.
#[derive(Clone, Debug, PartialEq, Eq)]
pub enum Expr {
    /// A base value.
    Literal(Value),
    /// A function by its code.
    Function(u8),
    /// Condition, first branch, second branch.
    If(Box<[Expr; 3]>),
    /// Function and argument.
    Apply(Box<[Expr; 2]>),
    /// Attribute number; node and parameter.
    Attribute(u8, Box<[Expr; 2]>),
    /// This node.
    This,
    /// The parameter.
    Parameter,
}

/// What an expression can speak of.
#[derive(Clone, Copy, Debug)]
pub struct Scope<'a> {
    /// The attributes; none where a declaration is faulty.
    pub attributes: &'a [Option<Attribute>],
    /// How many nodes there are.
    pub nodes: usize,
    /// What it is an expression of.
    pub part: Part,
}

/// What an expression is for.
#[derive(Clone, Copy, Debug, PartialEq, Eq)]
pub enum Part {
    /// A question has neither this node nor the parameter.
    Question,
    /// A forward has this node and not the parameter.
    Forward,
    /// A rule has both; its parameter has this type.
    Rule(Type),
}

/// The type of an expression: a base type, or a function from one.
#[derive(Clone, Copy, Debug, PartialEq, Eq)]
pub enum Kind {
    /// A base type.
    Base(Type),
    /// A function from a base type.
    From(Type, &'static Kind),
}

const BOOL: Kind = Kind::Base(Type::Bool);
const INT: Kind = Kind::Base(Type::Int);
const INT_TO_BOOL: Kind = Kind::From(Type::Int, &BOOL);
const INT_TO_INT: Kind = Kind::From(Type::Int, &INT);
const NODE_TO_BOOL: Kind = Kind::From(Type::Node, &BOOL);

impl Kind {
    /// The type in words.
    pub fn words(self) -> String {
        match self {
            Kind::Base(base) => base.to_string(),
            Kind::From(from, to) => format!("function from {from} to {}", to.words()),
        }
    }
}

/// The base value of a type that four bytes stand for, on a sheet of so many nodes.
pub fn value(of: Type, word: [u8; 4], nodes: usize) -> Option<Value> {
    let number = u32::from_le_bytes(word);
    match of {
        Type::Unit => (number == 0).then_some(Value::Unit),
        Type::Bool => (number <= 1).then_some(Value::Bool(number == 1)),
        Type::Int => Some(Value::Int(i32::from_le_bytes(word))),
        Type::Node => node(u16::try_from(number).ok()?, nodes),
    }
}

/// The four bytes of a base value.
pub fn word(value: Value) -> [u8; 4] {
    match value {
        Value::Unit => [0; 4],
        Value::Bool(truth) => u32::from(truth).to_le_bytes(),
        Value::Int(number) => number.to_le_bytes(),
        Value::Node(node) => u32::from(node.unwrap_or(NULL)).to_le_bytes(),
    }
}

/// The Node with a number: null, or one of so many that are declared.
fn node(number: u16, nodes: usize) -> Option<Value> {
    let declared = usize::from(number) < nodes;
    match number {
        NULL => Some(Value::Node(None)),
        _ => declared.then_some(Value::Node(Some(number))),
    }
}

impl Scope<'_> {
    /// A declared attribute.
    pub fn attribute(&self, number: u8) -> Result<Attribute, String> {
        match self.attributes.get(usize::from(number)) {
            Some(Some(attribute)) => Ok(*attribute),
            Some(None) => Err(format!("the declaration of a{number} is faulty")),
            None => Err(format!("a{number} is not declared")),
        }
    }
}

impl Expr {
    /// The expression that bytes write from the first to the last, or why they write none.
    pub fn read(bytes: &[u8], scope: Scope) -> Result<Expr, String> {
        if bytes.is_empty() || bytes.len() > LONGEST {
            let length = bytes.len();
            return Err(format!(
                "an expression has 1 to {LONGEST} bytes, and not {length}"
            ));
        }
        let mut reader = Reader { bytes, scope };
        let expr = reader.expression()?;
        match reader.bytes.len() {
            0 => Ok(expr),
            1 => Err("a byte is left over after the expression".into()),
            left => Err(format!("{left} bytes are left over after the expression")),
        }
    }

    /// The type of the expression, or why it has none.
    pub fn kind(&self, scope: Scope) -> Result<Kind, String> {
        let wanted = |part: &str, wanted: Kind, found: Kind| match wanted == found {
            true => Ok(()),
            false => Err(format!(
                "{part} is of type {}, and not {}",
                found.words(),
                wanted.words()
            )),
        };
        match self {
            Expr::Literal(value) => Ok(Kind::Base(value.value_type())),
            Expr::Function(code) => Ok(match code {
                0 | 1 => Kind::From(Type::Int, &INT_TO_BOOL),
                2 => Kind::From(Type::Node, &NODE_TO_BOOL),
                3 => Kind::From(Type::Bool, &BOOL),
                _ => Kind::From(Type::Int, &INT_TO_INT),
            }),
            Expr::If(parts) => {
                let [condition, yes, no] = &**parts;
                wanted("a condition", BOOL, condition.kind(scope)?)?;
                let yes = yes.kind(scope)?;
                wanted("the second branch of an IF", yes, no.kind(scope)?)?;
                Ok(yes)
            }
            Expr::Apply(parts) => {
                let [function, argument] = &**parts;
                let Kind::From(from, to) = function.kind(scope)? else {
                    return Err("what is applied is no function".into());
                };
                wanted("an argument", Kind::Base(from), argument.kind(scope)?)?;
                Ok(*to)
            }
            Expr::Attribute(number, parts) => {
                let [node, parameter] = &**parts;
                let declared = scope.attribute(*number)?;
                let of = format!("what a{number} is asked of");
                wanted(&of, Kind::Base(Type::Node), node.kind(scope)?)?;
                let part = format!("the parameter of a{number}");
                wanted(
                    &part,
                    Kind::Base(declared.parameter),
                    parameter.kind(scope)?,
                )?;
                Ok(Kind::Base(declared.result))
            }
            Expr::This => Ok(Kind::Base(Type::Node)),
            Expr::Parameter => match scope.part {
                Part::Rule(parameter) => Ok(Kind::Base(parameter)),
                _ => Err("only a rule has a parameter".into()),
            },
        }
    }
}

/// What is left to read.
struct Reader<'a> {
    bytes: &'a [u8],
    scope: Scope<'a>,
}

impl Reader<'_> {
    fn take<const N: usize>(&mut self) -> Result<[u8; N], String> {
        let cut = || "the expression is cut".to_string();
        let (taken, rest) = self.bytes.split_first_chunk().ok_or_else(cut)?;
        self.bytes = rest;
        Ok(*taken)
    }

    /// One expression, by its head and the shorter ones inside it.
    fn expression(&mut self) -> Result<Expr, String> {
        let [head] = self.take()?;
        Ok(match head {
            0x10 => Expr::Literal(Value::Unit),
            0x11 => match self.take()? {
                [truth @ (0 | 1)] => Expr::Literal(Value::Bool(truth == 1)),
                [other] => return Err(format!("{other} is no Bool")),
            },
            0x12 => Expr::Literal(Value::Int(i32::from_le_bytes(self.take()?))),
            0x13 => {
                let number = u16::from_le_bytes(self.take()?);
                let missing = || format!("n{number} is not declared");
                Expr::Literal(node(number, self.scope.nodes).ok_or_else(missing)?)
            }
            0x14 => match self.take()? {
                [code] if usize::from(code) < FUNCTIONS.len() => Expr::Function(code),
                [code] => return Err(format!("there is no function {code}")),
            },
            0x20 => Expr::If(Box::new([
                self.expression()?,
                self.expression()?,
                self.expression()?,
            ])),
            0x21 => Expr::Apply(Box::new([self.expression()?, self.expression()?])),
            0x22 => {
                let [number] = self.take()?;
                // A faulty declaration is a declaration; its type is what is missing.
                if usize::from(number) >= self.scope.attributes.len() {
                    return Err(format!("a{number} is not declared"));
                }
                Expr::Attribute(number, Box::new([self.expression()?, self.expression()?]))
            }
            0x30 if self.scope.part != Part::Question => Expr::This,
            0x31 if matches!(self.scope.part, Part::Rule(_)) => Expr::Parameter,
            0x30 => return Err("a question has no node of its own".into()),
            0x31 => return Err("only a rule has a parameter".into()),
            other => return Err(format!("0x{other:02x} begins no expression")),
        })
    }
}

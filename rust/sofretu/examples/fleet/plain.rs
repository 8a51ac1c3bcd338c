//! What one writes without the library: the sheet is read into hash maps and its rules are evaluated by recursion. Nothing is checked, and nothing bounds
//! the depth or the steps.

use std::collections::HashMap;

#[derive(Clone, Copy)]
enum Value {
    Unit,
    Bool(bool),
    Int(i32),
    Node(Option<u16>),
    Function(u8),
    /// A function of two arguments that has its first.
    Holding(u8, i32),
}

/// A sheet as hash maps, and the values that were worked out.
pub struct Plain {
    types: Vec<u8>,
    kinds: Vec<u8>,
    figures: HashMap<(u16, u8), Value>,
    rules: HashMap<(u8, u8), Vec<u8>>,
    known: HashMap<(u16, u8), Value>,
}

fn two(bytes: &[u8]) -> u16 {
    u16::from_le_bytes([bytes[0], bytes[1]])
}

fn four(bytes: &[u8]) -> i32 {
    i32::from_le_bytes([bytes[0], bytes[1], bytes[2], bytes[3]])
}

fn node(number: u16) -> Value {
    Value::Node((number != u16::MAX).then_some(number))
}

impl Plain {
    /// Reads a sheet that is believed to be good.
    pub fn read(mut sheet: &[u8]) -> Plain {
        let mut plain = Plain {
            types: Vec::new(),
            kinds: Vec::new(),
            figures: HashMap::new(),
            rules: HashMap::new(),
            known: HashMap::new(),
        };
        while sheet[0] != 0x5A {
            let width = match sheet[0] {
                0x41 => {
                    plain.types.push(sheet[1]);
                    3
                }
                0x4E => {
                    plain.kinds.push(sheet[1]);
                    2
                }
                0x56 => {
                    let value = match plain.types[usize::from(sheet[3])] {
                        2 => Value::Int(four(&sheet[4..])),
                        _ => node(two(&sheet[4..])),
                    };
                    plain.figures.insert((two(&sheet[1..]), sheet[3]), value);
                    8
                }
                _ => {
                    let end = 5 + usize::from(two(&sheet[3..]));
                    let rule = sheet[5..end].to_vec();
                    plain.rules.insert((sheet[1], sheet[2]), rule);
                    end
                }
            };
            sheet = &sheet[width..];
        }
        plain
    }

    /// An Int attribute of a place.
    pub fn ask(&mut self, place: u16, attribute: u8) -> Option<i32> {
        match self.attribute(place, attribute) {
            Value::Int(number) => Some(number),
            _ => None,
        }
    }

    fn attribute(&mut self, place: u16, attribute: u8) -> Value {
        if let Some(value) = self.known.get(&(place, attribute)) {
            return *value;
        }
        let value = match self.figures.get(&(place, attribute)) {
            Some(figure) => *figure,
            None => {
                let kind = self.kinds[usize::from(place)];
                let rule = self.rules[&(kind, attribute)].clone();
                self.evaluate(&mut &*rule, place)
            }
        };
        self.known.insert((place, attribute), value);
        value
    }

    /// The value of the expression at the front, which is taken off.
    fn evaluate(&mut self, bytes: &mut &[u8], this: u16) -> Value {
        let head = bytes[0];
        *bytes = &bytes[1..];
        match head {
            0x10 => Value::Unit,
            0x12 => {
                let number = four(bytes);
                *bytes = &bytes[4..];
                Value::Int(number)
            }
            0x14 => {
                let function = bytes[0];
                *bytes = &bytes[1..];
                Value::Function(function)
            }
            0x20 => {
                let condition = self.evaluate(bytes, this);
                // Only the branch that is taken is evaluated.
                if matches!(condition, Value::Bool(true)) {
                    let value = self.evaluate(bytes, this);
                    skip(bytes);
                    value
                } else {
                    skip(bytes);
                    self.evaluate(bytes, this)
                }
            }
            0x21 => match (self.evaluate(bytes, this), self.evaluate(bytes, this)) {
                (Value::Function(function), Value::Int(first)) => Value::Holding(function, first),
                (Value::Holding(1, first), Value::Int(second)) => Value::Bool(first == second),
                (Value::Holding(4, first), Value::Int(second)) => Value::Int(first + second),
                _ => Value::Unit,
            },
            0x22 => {
                let attribute = bytes[0];
                *bytes = &bytes[1..];
                let place = self.evaluate(bytes, this);
                self.evaluate(bytes, this);
                match place {
                    Value::Node(Some(place)) => self.attribute(place, attribute),
                    _ => Value::Node(None),
                }
            }
            _ => node(this),
        }
    }
}

/// Takes the expression at the front off.
fn skip(bytes: &mut &[u8]) {
    let (operands, parts) = match bytes[0] {
        0x12 => (4, 0),
        0x14 => (1, 0),
        0x20 => (0, 3),
        0x21 => (0, 2),
        0x22 => (1, 2),
        _ => (0, 0),
    };
    *bytes = &bytes[1 + operands..];
    for _ in 0..parts {
        skip(bytes);
    }
}

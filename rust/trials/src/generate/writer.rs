//! Expressions of a wanted type or shape.

use oracle::expr::{Use, LONGEST};
use oracle::values::{Base, Function, Type, Value};

use super::draft::{base_value, Draft};
use super::rng::Rng;
use crate::write::if_else;

/// The function types that some value has.
pub fn function_types() -> [Type; 7] {
    [
        Function::Le.type_of(),
        Function::EqualNode.type_of(),
        Function::Add.type_of(),
        Function::Not.type_of(),
        Type::INT_TO_BOOL,
        Type::NODE_TO_BOOL,
        Type::INT_TO_INT,
    ]
}

/// The length of the longest leaf of a type.
fn leaf_length(typ: &Type) -> usize {
    match typ {
        Type::Base(Base::Unit) => 1,
        Type::Base(Base::Bool) => 2,
        Type::Base(Base::Node) => 3,
        Type::Base(Base::Int) => 5,
        Type::Function(Base::Bool, _) => 2,
        Type::Function(from, to) => match **to {
            Type::Function(..) => 2,
            Type::Base(_) => 3 + leaf_length(&Type::Base(*from)),
        },
    }
}

fn leaf_lengths(types: &[Type]) -> usize {
    types.iter().map(leaf_length).sum()
}

/// Writes well-typed expressions at random.
pub struct Writer<'a> {
    pub rng: &'a mut Rng,
    pub draft: &'a Draft,
    pub usage: Use,
    /// Only attributes with smaller numbers are named.
    pub below: usize,
}

impl Writer<'_> {
    /// An expression of at most `room` bytes, unless the shortest is longer.
    pub fn expr(&mut self, typ: &Type, room: usize) -> Vec<u8> {
        let mut forms = self.forms(typ);
        forms.retain(|(head, parts)| head.len() + leaf_lengths(parts) <= room);
        if forms.is_empty() || self.rng.once_in(6) {
            return self.leaf(typ);
        }
        let (mut written, parts) = forms.swap_remove(self.rng.below(forms.len()));
        let mut spare = room - written.len() - leaf_lengths(&parts);
        for (place, part) in parts.iter().enumerate() {
            let last = place + 1 == parts.len();
            let share = if last {
                spare
            } else {
                self.rng.below(spare + 1)
            };
            spare -= share;
            written.extend(self.expr(part, leaf_length(part) + share));
        }
        written
    }

    /// The composite forms of a type: the head, and the types of the parts.
    fn forms(&self, typ: &Type) -> Vec<(Vec<u8>, Vec<Type>)> {
        let condition = Type::BOOL;
        let mut forms = vec![(vec![0x20], vec![condition, *typ, *typ])];
        for function in function_types() {
            if let Type::Function(from, to) = function {
                if to == typ {
                    forms.push((vec![0x21], vec![function, Type::Base(from)]));
                }
            }
        }
        for (number, attribute) in self.draft.attributes.iter().enumerate().take(self.below) {
            if Type::Base(attribute.result) == *typ {
                let parts = vec![Type::Base(Base::Node), Type::Base(attribute.parameter)];
                forms.push((vec![0x22, number as u8], parts));
            }
        }
        forms
    }

    fn leaf(&mut self, typ: &Type) -> Vec<u8> {
        match typ {
            Type::Base(base) => match self.usage {
                Use::Rule { parameter } if parameter == *base && self.rng.once_in(2) => vec![0x31],
                Use::Rule { .. } | Use::Forward if *base == Base::Node && self.rng.once_in(2) => {
                    vec![0x30]
                }
                _ => literal(base_value(self.rng, *base, self.draft.nodes.len())),
            },
            Type::Function(Base::Bool, _) => vec![0x14, 3],
            Type::Function(from, to) => match **to {
                Type::Function(_, result) => vec![0x14, self.code(*from, result)],
                Type::Base(_) => {
                    let mut written = vec![0x21, 0x14, self.code(*from, to)];
                    written.extend(self.leaf(&Type::Base(*from)));
                    written
                }
            },
        }
    }

    /// A function of two arguments of one type.
    fn code(&mut self, arguments: Base, result: &Type) -> u8 {
        match (arguments, result) {
            (Base::Node, _) => 2,
            (_, Type::Base(Base::Bool)) => self.rng.pick(&[0, 1]),
            _ => self.rng.pick(&[4, 5]),
        }
    }
}

/// A base value as an expression.
pub fn literal(value: Value) -> Vec<u8> {
    let bytes = value.to_bytes();
    match value {
        Value::Unit => vec![0x10],
        Value::Bool(_) => vec![0x11, bytes[0]],
        Value::Int(_) => [&[0x12], &bytes[..]].concat(),
        Value::Node(_) => [&[0x13], &bytes[..2]].concat(),
        Value::Function(_) | Value::Holding(_) => unreachable!("a base value"),
    }
}

pub fn number(int: i32) -> Vec<u8> {
    literal(Value::Int(int))
}

pub fn apply(code: u8, arguments: &[&[u8]]) -> Vec<u8> {
    let mut written = vec![0x21; arguments.len()];
    written.extend([0x14, code]);
    written.extend(arguments.concat());
    written
}

/// A Unit expression of exactly `length` bytes, from 14 on.
pub fn unit_of_length(length: usize) -> Vec<u8> {
    let truth = [0x11, 1];
    let nots = (0..4)
        .find(|nots| (length - 1 - 3 * nots).is_multiple_of(4))
        .expect("3 and 4 have no common divisor");
    let condition = [&[0x21, 0x14, 3].repeat(nots)[..], &truth].concat();
    let mut expr = if_else(&condition, &[0x10], &[0x10]);
    while expr.len() < length {
        expr = if_else(&truth, &expr, &[0x10]);
    }
    expr
}

/// An expression with as many layers around it as a rule has room for.
pub fn wrapped(inner: Vec<u8>, layer: impl Fn(&[u8]) -> Vec<u8>) -> Vec<u8> {
    let mut best = inner;
    loop {
        let larger = layer(&best);
        if larger.len() > LONGEST {
            return best;
        }
        best = larger;
    }
}

#[cfg(test)]
mod tests {
    use super::*;
    use oracle::expr::{Attribute, Expr, Scope};

    #[test]
    fn a_unit_expression_has_the_length_asked_for() {
        let scope = Scope {
            attributes: &[],
            nodes: 0,
            usage: Use::Question,
        };
        for length in 14..=300 {
            let written = unit_of_length(length);
            assert_eq!(written.len(), length);
            let expr = Expr::read(&written, scope).expect("of the form");
            assert_eq!(expr.type_of(scope), Some(Type::Base(Base::Unit)));
        }
    }

    #[test]
    fn expressions_have_the_type_asked_for_and_fit_their_room() {
        let mut draft = Draft::default();
        for result in Base::ALL {
            for parameter in Base::ALL {
                draft.attribute(result, parameter);
            }
        }
        for _ in 0..3 {
            draft.node(0);
        }
        let mut rng = Rng::new(1, 1);
        for round in 0..4_000 {
            let typ = match round % 11 {
                base @ 0..=3 => Type::Base(Base::ALL[base]),
                function => function_types()[function - 4],
            };
            let usage = match round % 3 {
                0 => Use::Question,
                1 => Use::Forward,
                _ => Use::Rule {
                    parameter: rng.pick(&Base::ALL),
                },
            };
            let room = rng.between(8, LONGEST);
            let attributes: &[Attribute] = &draft.attributes;
            let written = Writer {
                rng: &mut rng,
                draft: &draft,
                usage,
                below: attributes.len(),
            }
            .expr(&typ, room);
            assert!(written.len() <= room);
            let scope = Scope {
                attributes,
                nodes: 3,
                usage,
            };
            let expr = Expr::read(&written, scope).expect("of the form");
            assert_eq!(expr.type_of(scope), Some(typ));
        }
    }

    #[test]
    fn layers_fill_a_rule() {
        let nots = wrapped(vec![0x31], |inner| apply(3, &[inner]));
        assert_eq!(nots.len(), 256);
        assert_eq!(nots[..6], [0x21, 0x14, 3, 0x21, 0x14, 3]);
    }
}

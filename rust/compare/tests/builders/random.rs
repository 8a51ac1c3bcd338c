//! Made-up values and expressions, as the second evaluator has them.

use oracle::expr::{Expr, Use};
use oracle::values::{Base, Function as Code, Value};

/// The attributes' result and parameter types.
pub const ATTRIBUTES: [(Base, Base); 7] = [
    (Base::Int, Base::Unit),
    (Base::Int, Base::Int),
    (Base::Bool, Base::Int),
    (Base::Bool, Base::Node),
    (Base::Node, Base::Unit),
    (Base::Node, Base::Bool),
    (Base::Unit, Base::Bool),
];
pub const NODES: usize = 5;
pub const KINDS: usize = 3;

/// A small generator of numbers (SplitMix64).
pub struct Random(pub u64);

impl Random {
    pub fn below(&mut self, bound: usize) -> usize {
        self.0 = self.0.wrapping_add(0x9E37_79B9_7F4A_7C15);
        let mut z = self.0;
        z = (z ^ (z >> 30)).wrapping_mul(0xBF58_476D_1CE4_E5B9);
        z = (z ^ (z >> 27)).wrapping_mul(0x94D0_49BB_1331_11EB);
        ((z ^ (z >> 31)) % bound as u64) as usize
    }

    pub fn once_in(&mut self, times: usize) -> bool {
        self.below(times) == 0
    }

    pub fn pick<T: Copy>(&mut self, from: &[T]) -> T {
        from[self.below(from.len())]
    }

    pub fn value(&mut self, base: Base) -> Value {
        match base {
            Base::Unit => Value::Unit,
            Base::Bool => Value::Bool(self.once_in(2)),
            Base::Int => Value::Int(self.pick(&[0, 1, 2, -1, 700, i32::MIN, i32::MAX])),
            Base::Node => {
                let node = self.below(NODES + 1);
                Value::Node((node < NODES).then_some(node as u16))
            }
        }
    }

    /// An expression of a type and some depth. One part in 300 is of another type.
    pub fn expression(&mut self, base: Base, usage: Use, depth: usize) -> Expr {
        let base = match self.once_in(300) {
            true => self.pick(&Base::ALL),
            false => base,
        };
        if depth == 0 || self.once_in(4) {
            return self.leaf(base, usage);
        }
        match (self.below(4), base) {
            (0, _) => Expr::If(Box::new(
                [Base::Bool, base, base].map(|base| self.expression(base, usage, depth - 1)),
            )),
            (1 | 2, Base::Bool) => {
                let (code, argument) = self.pick(&[
                    (Code::Le, Base::Int),
                    (Code::EqualInt, Base::Int),
                    (Code::EqualNode, Base::Node),
                    (Code::Not, Base::Bool),
                ]);
                self.function(code, argument, usage, depth)
            }
            (1 | 2, Base::Int) => {
                let code = self.pick(&[Code::Add, Code::Subtract]);
                self.function(code, Base::Int, usage, depth)
            }
            _ => {
                let with: Vec<usize> = (0..ATTRIBUTES.len())
                    .filter(|number| ATTRIBUTES[*number].0 == base)
                    .collect();
                let number = self.pick(&with);
                let parts = [Base::Node, ATTRIBUTES[number].1];
                let parts = parts.map(|base| self.expression(base, usage, depth - 1));
                Expr::Attribute(number as u8, Box::new(parts))
            }
        }
    }

    fn leaf(&mut self, base: Base, usage: Use) -> Expr {
        match usage {
            Use::Rule { parameter } if parameter == base && self.once_in(2) => Expr::Parameter,
            Use::Rule { .. } | Use::Forward if base == Base::Node && !self.once_in(3) => {
                Expr::ThisNode
            }
            _ => Expr::Literal(self.value(base)),
        }
    }

    /// A function, or one of two alike, given all its arguments.
    fn function(&mut self, code: Code, argument: Base, usage: Use, depth: usize) -> Expr {
        let mut function = Expr::Literal(Value::Function(code));
        if self.once_in(5) {
            let condition = self.leaf(Base::Bool, usage);
            let other = match code {
                Code::Le => Code::EqualInt,
                Code::Add => Code::Subtract,
                other => other,
            };
            let other = Expr::Literal(Value::Function(other));
            function = Expr::If(Box::new([condition, function, other]));
        }
        for _ in 0..if code == Code::Not { 1 } else { 2 } {
            let argument = self.expression(argument, usage, depth - 1);
            function = Expr::Apply(Box::new([function, argument]));
        }
        function
    }
}

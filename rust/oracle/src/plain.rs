//! Document 01, "Plain Saiga": no store, no budget and no limit on depth; document 02, F-4, F-7 and F-9.
//!
//! The state is one expression and a count. The expression is kept as the part being stepped and what stands around it,
//! from the outside in. σ(n, a, v) is its rule's expression, or a forward's and what stands around that, with n and v
//! beside it, put for 0x30 and 0x31 where these are reached.

use std::collections::HashSet;

use crate::expr::Expr;
use crate::sheet::{Definition, Sheet};
use crate::store::Occurrence;
use crate::values::{Overflow, Value};

/// "It ends with a value or on null, and n is the count then; or it runs for ever." There are "three endings, value, null and overflow"
/// (document 02, F-4).
#[derive(Clone, Copy, Debug, PartialEq, Eq)]
pub enum Ending {
    Value(Value, u64),
    Null(u64),
    Overflow(u64),
    /// A further step was due after as many as the caller allowed.
    Running(u64),
}

impl Ending {
    /// The n of an ending.
    pub fn n(self) -> Option<u64> {
        match self {
            Ending::Value(_, n) | Ending::Null(n) | Ending::Overflow(n) => Some(n),
            Ending::Running(_) => None,
        }
    }
}

/// An expression as it is written, with the "n and v put for 0x30 and 0x31" ("The sheet"); a question has neither.
#[derive(Clone, Copy)]
struct Written<'a> {
    expr: &'a Expr,
    occurrence: Option<Occurrence>,
}

impl<'a> Written<'a> {
    fn inner(self, expr: &'a Expr) -> Written<'a> {
        Written { expr, ..self }
    }
}

/// The part being stepped.
enum Part<'a> {
    Value(Value),
    Written(Written<'a>),
}

/// What stands directly around a part: the other parts of the expression it belongs to.
enum Around<'a> {
    Condition {
        yes: Written<'a>,
        no: Written<'a>,
    },
    Left {
        right: Written<'a>,
    },
    Right {
        function: Value,
    },
    Node {
        attribute: u8,
        parameter: Written<'a>,
    },
    Parameter {
        attribute: u8,
        node: Value,
    },
}

/// An occurrence that "comes due inside its own evaluation" (document 02, F-9), the first in a run.
#[derive(Clone, Copy, Debug, PartialEq, Eq)]
pub struct Circle {
    pub occurrence: Occurrence,
    /// The steps counted before it comes due there.
    pub steps: u64,
}

/// How plain Saiga ends, and the circle that it comes to. "A question runs for ever exactly if some occurrence comes due inside its own
/// evaluation" (document 02, F-9): no run has both, and one that is still running without a circle needs a higher limit to tell.
#[derive(Clone, Copy, Debug, PartialEq, Eq)]
pub struct Watched {
    pub ending: Ending,
    pub circle: Option<Circle>,
}

/// The occurrences inside whose own evaluation the part being stepped lies: σ(n, a, v) took the place of a part that is no value yet.
#[derive(Default)]
struct Inside {
    /// From the outside in, each with how many expressions stand around that part.
    parts: Vec<(Occurrence, usize)>,
    occurrences: HashSet<Occurrence>,
}

impl Inside {
    /// The part with so many expressions around it is a value.
    fn value(&mut self, around: usize) {
        while let Some((occurrence, _)) = self.parts.pop_if(|(_, place)| *place == around) {
            self.occurrences.remove(&occurrence);
        }
    }

    /// σ of an occurrence takes the place of the part with so many expressions around it. Whether that lies inside the occurrence's own
    /// evaluation.
    fn enter(&mut self, occurrence: Occurrence, around: usize) -> bool {
        self.parts.push((occurrence, around));
        !self.occurrences.insert(occurrence)
    }
}

/// Runs plain Saiga on an accepted question, for at most `limit` counted steps, past a circle too. "On null, all of plain Saiga ends,
/// uncounted", and on a sum that does not fit too.
pub fn watch(sheet: &Sheet, question: &Expr, limit: u64) -> Watched {
    let mut around = Vec::new();
    let mut inside = Inside::default();
    let mut circle = None;
    let mut count = 0;
    let mut part = Part::Written(Written {
        expr: question,
        occurrence: None,
    });
    let ending = loop {
        let value = match part {
            Part::Value(value) => value,
            Part::Written(written) => descend(written, &mut around),
        };
        inside.value(around.len());
        let reduct = match around.pop() {
            None => break Ending::Value(value, count),
            Some(Around::Left { right }) => {
                around.push(Around::Right { function: value });
                part = Part::Written(right);
                continue;
            }
            Some(Around::Node {
                attribute,
                parameter,
            }) => {
                around.push(Around::Parameter {
                    attribute,
                    node: value,
                });
                part = Part::Written(parameter);
                continue;
            }
            Some(Around::Parameter {
                node: Value::Node(None),
                ..
            }) => break Ending::Null(count),
            Some(Around::Condition { yes, no }) => match value {
                Value::Bool(true) => Part::Written(yes),
                Value::Bool(false) => Part::Written(no),
                other => unreachable!("ill typed: IF {other:?}"),
            },
            Some(Around::Right { function }) => match function.apply(value) {
                Ok(result) => Part::Value(result),
                Err(Overflow) => break Ending::Overflow(count),
            },
            Some(Around::Parameter {
                attribute,
                node: Value::Node(Some(node)),
            }) => {
                let occurrence = Occurrence {
                    node,
                    attribute,
                    parameter: value,
                };
                if circle.is_none() && inside.enter(occurrence, around.len()) {
                    circle = Some(Circle {
                        occurrence,
                        steps: count,
                    });
                }
                context(sheet, occurrence, &mut around)
            }
            Some(Around::Parameter { node, .. }) => {
                unreachable!("ill typed: attribute of {node:?}")
            }
        };
        if count == limit {
            break Ending::Running(count);
        }
        count += 1;
        part = reduct;
    };
    Watched { ending, circle }
}

/// Goes into an expression, along the parts that are stepped first, until there is a value.
fn descend<'a>(mut written: Written<'a>, around: &mut Vec<Around<'a>>) -> Value {
    loop {
        let first = match written.expr {
            Expr::Literal(value) => return *value,
            Expr::ThisNode => {
                let occurrence = written.occurrence.expect("a question does not say 0x30");
                return Value::Node(Some(occurrence.node));
            }
            Expr::Parameter => {
                let occurrence = written.occurrence.expect("a question does not say 0x31");
                return occurrence.parameter;
            }
            Expr::If(parts) => {
                let [condition, yes, no] = &**parts;
                around.push(Around::Condition {
                    yes: written.inner(yes),
                    no: written.inner(no),
                });
                condition
            }
            Expr::Apply(parts) => {
                let [left, right] = &**parts;
                around.push(Around::Left {
                    right: written.inner(right),
                });
                left
            }
            Expr::Attribute(attribute, parts) => {
                let [node, parameter] = &**parts;
                around.push(Around::Node {
                    attribute: *attribute,
                    parameter: written.inner(parameter),
                });
                node
            }
        };
        written = written.inner(first);
    }
}

/// What "takes the place of this part": σ(n, a, v). Of "attribute a of f with parameter v" (document 02, F-7) the part being stepped is f, and the
/// rest stands around it.
fn context<'a>(sheet: &'a Sheet, occurrence: Occurrence, around: &mut Vec<Around<'a>>) -> Part<'a> {
    let written = |expr| Written {
        expr,
        occurrence: Some(occurrence),
    };
    match sheet.definition(occurrence.node, occurrence.attribute) {
        Definition::Figure(value) => Part::Value(value),
        Definition::Rule(expr) => Part::Written(written(expr)),
        Definition::Forward(f) => {
            around.push(Around::Node {
                attribute: occurrence.attribute,
                parameter: written(&Expr::Parameter),
            });
            Part::Written(written(f))
        }
    }
}

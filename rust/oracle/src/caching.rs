//! Document 01, "The steps", and stops 14 to 16 of "Stops by origin"; document 02, F-2, F-4, F-7, F-8 and F-9.
//!
//! A recursive evaluator over the expression tree: "left part before right part, IF by condition only". A call of `evaluate` inside that of
//! a definition is what lies inside the form n.a(v) := e.

use std::thread;

use crate::expr::Expr;
use crate::sheet::{Definition, Sheet};
use crate::stop::Reason;
use crate::store::{Occurrence, Store};
use crate::tally::{Rule, Tally, ZEROS};
use crate::values::Value;

/// Stop 16: "AttrApp due inside 64 open forms"; by F-8 of document 02 "only when the occurrence due is not kept".
pub const MOST_OPEN: usize = 64;

/// Nesting that the caller's own stack is trusted with.
const SHALLOW: usize = 1_000;
/// More than one call of `evaluate` takes on the stack, optimised or not.
const STACK_PER_LEVEL: usize = 4_096;

/// The "n and v put for 0x30 and 0x31"; a question has neither.
type Here = Option<(u16, Value)>;

struct Run<'a, 's> {
    sheet: &'a Sheet,
    store: &'a mut Store<'s>,
    budget: u64,
    steps: u64,
    tally: Tally,
    /// "An occurrence (n, a, v) is open while its form stands around the part being stepped": these, from the outside in.
    open: Vec<Occurrence>,
}

/// What a run brings: the value or the stop, the steps counted, and their tally.
pub struct Outcome {
    pub ending: Result<Value, Reason>,
    pub steps: u64,
    pub tally: Tally,
}

/// Evaluates an accepted question. "Stops 14 to 16 bring the tally so far", and so do 17 and 20, each of which "leaves store and tally as 14
/// does".
pub fn evaluate(sheet: &Sheet, store: &mut Store, question: &Expr, budget: u64) -> Outcome {
    let levels = question.depth() + MOST_OPEN * (1 + sheet.deepest_expression());
    let mut run = Run {
        sheet,
        store,
        budget,
        steps: 0,
        tally: ZEROS,
        open: Vec::with_capacity(MOST_OPEN),
    };
    let ending = if levels <= SHALLOW {
        run.evaluate(question, None)
    } else {
        thread::scope(|scope| {
            thread::Builder::new()
                .stack_size(levels * STACK_PER_LEVEL)
                .spawn_scoped(scope, || run.evaluate(question, None))
                .expect("a thread for the evaluator")
                .join()
                .expect("the evaluator does not panic")
        })
    };
    Outcome {
        ending,
        steps: run.steps,
        tally: run.tally,
    }
}

impl<'a> Run<'a, '_> {
    fn evaluate(&mut self, mut expr: &'a Expr, here: Here) -> Result<Value, Reason> {
        loop {
            match expr {
                Expr::Literal(value) => return Ok(*value),
                Expr::ThisNode => {
                    let (node, _) = here.expect("a question does not say 0x30");
                    return Ok(Value::Node(Some(node)));
                }
                Expr::Parameter => {
                    let (_, parameter) = here.expect("a question does not say 0x31");
                    return Ok(parameter);
                }
                Expr::If(parts) => {
                    let [condition, yes, no] = &**parts;
                    let (rule, branch) = match self.evaluate(condition, here)? {
                        Value::Bool(true) => (Rule::CondTrue, yes),
                        Value::Bool(false) => (Rule::CondFalse, no),
                        other => unreachable!("ill typed: IF {other:?}"),
                    };
                    self.not_spent()?;
                    self.count(rule);
                    expr = branch;
                }
                Expr::Apply(parts) => {
                    let [function, argument] = &**parts;
                    let function = self.evaluate(function, here)?;
                    let argument = self.evaluate(argument, here)?;
                    // Overflow is "tested like 14 before 15", and "the step is not counted".
                    let result = function.apply(argument)?;
                    self.not_spent()?;
                    self.count(Rule::AppApp);
                    return Ok(result);
                }
                Expr::Attribute(attribute, parts) => {
                    let [node, parameter] = &**parts;
                    let node = self.evaluate(node, here)?;
                    let parameter = self.evaluate(parameter, here)?;
                    return self.attribute(node, *attribute, parameter);
                }
            }
        }
    }

    /// AttrApp, what lies inside the form it opens, and CacheWrite, which counts none. "Where several of 14 to 16 are due, the smallest", and
    /// 20 is "tested after 14 and before 15"; "AttrApp takes a kept value before σ", and 16 comes "only when the occurrence due is not kept".
    fn attribute(&mut self, node: Value, attribute: u8, parameter: Value) -> Result<Value, Reason> {
        let node = match node {
            Value::Node(Some(node)) => node,
            Value::Node(None) => return Err(Reason::Null),
            other => unreachable!("ill typed: attribute of {other:?}"),
        };
        let occurrence = Occurrence {
            node,
            attribute,
            parameter,
        };
        let kept = self.store.value(&occurrence);
        // "When AttrApp is due on an occurrence that is open and not kept, the run stops there, uncounted."
        if kept.is_none() && self.open.contains(&occurrence) {
            return Err(Reason::Circle);
        }
        self.not_spent()?;
        let rule = Rule::AttrApp(attribute);
        if let Some(value) = kept {
            self.count(rule);
            return Ok(value);
        }
        if self.open.len() == MOST_OPEN {
            return Err(Reason::Depth);
        }
        self.count(rule);
        self.open.push(occurrence);
        let here = Some((node, parameter));
        let value = match self.sheet.definition(node, attribute) {
            Definition::Figure(figure) => figure,
            Definition::Rule(expr) => self.evaluate(expr, here)?,
            // "Attribute a of f with parameter v, all by the ordinary steps": f's value, and AttrApp on that.
            Definition::Forward(f) => {
                let node = self.evaluate(f, here)?;
                self.attribute(node, attribute, parameter)?
            }
        };
        self.open.pop();
        self.store.write(occurrence, value);
        Ok(value)
    }

    /// Stop 15: "a counted step due with the whole budget used".
    fn not_spent(&self) -> Result<(), Reason> {
        if self.steps == self.budget {
            return Err(Reason::Spent);
        }
        Ok(())
    }

    /// "Each of CondTrue, CondFalse, AppApp and AttrApp counts one", and "each row equals that count".
    fn count(&mut self, rule: Rule) {
        self.steps += 1;
        self.tally[rule.row()] += 1;
    }
}

//! A question worked out beside the library, with the tree of its equations.
//!
//! It follows documents 01 and 02 by recursion over expressions: the left part before the right part, an IF by its condition alone. What lies inside the
//! form of an occurrence is worked out inside its call.

use std::thread;

use sofretu::{Stop, Value, MOST_STEPS};

use crate::expression::Expr;
use crate::kept::{Kept, Occurrence};
use crate::sheet::{Definition, Sheet};
use crate::tree::{Place, Source, Tree};

/// How many occurrences can be open.
const MOST_OPEN: usize = 64;
/// The row of the applications in a tally, and that of the conditions.
const APPLICATIONS: usize = 32;
const CONDITIONS: usize = 33;
/// Room for 64 expressions of 256 bytes inside each other, each byte a call of 4,096 bytes.
const STACK: usize = 64 << 20;

/// A value while a question runs.
#[derive(Clone, Copy, Debug)]
enum Term {
    Base(Value),
    Function(u8),
    Holding(u8, Value),
}

/// What was due when a run stopped.
#[derive(Clone, Copy, Debug, PartialEq, Eq)]
pub enum Due {
    /// An attribute of a node.
    Attribute(Occurrence),
    /// An attribute of null.
    OfNull(u8, Value),
    /// A sum (code 4) or a difference (code 5).
    Sum(u8, i32, i32),
    /// A function was to be given an argument.
    Application,
    /// An IF was to choose its branch.
    Condition,
}

/// What a question brings, as the library's answer tells it, and why.
#[derive(Debug)]
pub struct Explained {
    /// The value, or the stop.
    pub ending: Result<Value, Stop>,
    /// The counted steps.
    pub steps: u64,
    /// Where they went.
    pub rows: [u64; 34],
    /// What is kept afterwards.
    pub kept: Kept,
    /// How many figures were kept before.
    pub kept_before: usize,
    /// The equations.
    pub tree: Tree,
    /// What was due at a stop of the run.
    pub due: Option<Due>,
    /// What was open at a stop of the run, from the outside in.
    pub open: Vec<(Occurrence, Source)>,
}

/// Works out a question of an accepted sheet.
pub fn explain(sheet: &Sheet, kept: Kept, question: &Expr, budget: u64, tree: Tree) -> Explained {
    let mut run = Run {
        sheet,
        budget,
        place: Place::Question,
        told: Explained {
            ending: Err(Stop::Budget),
            steps: 0,
            rows: [0; 34],
            kept_before: kept.count(),
            kept,
            tree,
            due: None,
            open: Vec::new(),
        },
    };
    if budget <= MOST_STEPS {
        let ending = on_a_deep_stack(|| run.base(question, None));
        run.told.ending = ending;
    }
    run.told
}

/// Runs in a thread of its own, whose stack holds the deepest recursion.
fn on_a_deep_stack<T: Send>(work: impl FnOnce() -> T + Send) -> T {
    thread::scope(|scope| {
        let deep = thread::Builder::new().stack_size(STACK);
        let running = deep.spawn_scoped(scope, work).expect("a thread");
        running.join().expect("the explanation does not panic")
    })
}

struct Run<'a> {
    sheet: &'a Sheet,
    budget: u64,
    place: Place,
    told: Explained,
}

/// The node and the parameter that an expression is worked out for; a question has none.
type Here = Option<(u16, Value)>;

impl<'a> Run<'a> {
    /// The value of an expression that typing has found of base type.
    fn base(&mut self, expr: &'a Expr, here: Here) -> Result<Value, Stop> {
        match self.term(expr, here)? {
            Term::Base(value) => Ok(value),
            function => unreachable!("ill typed: {function:?}"),
        }
    }

    fn term(&mut self, mut expr: &'a Expr, here: Here) -> Result<Term, Stop> {
        loop {
            match expr {
                Expr::Literal(value) => return Ok(Term::Base(*value)),
                Expr::Function(code) => return Ok(Term::Function(*code)),
                Expr::This => {
                    let (node, _) = here.expect("a question has no node of its own");
                    return Ok(Term::Base(Value::Node(Some(node))));
                }
                Expr::Parameter => {
                    let (_, parameter) = here.expect("a question has no parameter");
                    return Ok(Term::Base(parameter));
                }
                Expr::If(parts) => {
                    let [condition, yes, no] = &**parts;
                    let truth = self.base(condition, here)?;
                    self.count(CONDITIONS, Due::Condition)?;
                    expr = if truth == Value::Bool(true) { yes } else { no };
                }
                Expr::Apply(parts) => {
                    let [function, argument] = &**parts;
                    let function = self.term(function, here)?;
                    let argument = self.base(argument, here)?;
                    return self.apply(function, argument);
                }
                Expr::Attribute(attribute, parts) => {
                    let [node, parameter] = &**parts;
                    let node = self.base(node, here)?;
                    let parameter = self.base(parameter, here)?;
                    return self.attribute(node, *attribute, parameter).map(Term::Base);
                }
            }
        }
    }

    /// One counted step in a row of the tally, if the budget lasts.
    fn count(&mut self, row: usize, due: Due) -> Result<(), Stop> {
        if self.told.steps == self.budget {
            return self.stop(Stop::Spent, due);
        }
        self.told.steps += 1;
        self.told.rows[row] += 1;
        Ok(())
    }

    fn stop<T>(&mut self, stop: Stop, due: Due) -> Result<T, Stop> {
        self.told.due = Some(due);
        Err(stop)
    }

    /// A function given an argument. A sum that does not fit stops the run before the budget is looked at.
    fn apply(&mut self, function: Term, argument: Value) -> Result<Term, Stop> {
        let result = match (function, argument) {
            (Term::Function(3), Value::Bool(truth)) => Term::Base(Value::Bool(!truth)),
            (Term::Function(code), first) => Term::Holding(code, first),
            (Term::Holding(0, Value::Int(x)), Value::Int(y)) => Term::Base(Value::Bool(x <= y)),
            (Term::Holding(1 | 2, x), y) => Term::Base(Value::Bool(x == y)),
            (Term::Holding(code, Value::Int(x)), Value::Int(y)) => {
                let exact = if code == 4 {
                    x.checked_add(y)
                } else {
                    x.checked_sub(y)
                };
                match exact {
                    Some(number) => Term::Base(Value::Int(number)),
                    None => return self.stop(Stop::Overflow, Due::Sum(code, x, y)),
                }
            }
            (function, argument) => unreachable!("ill typed: {function:?} of {argument:?}"),
        };
        self.count(APPLICATIONS, Due::Application)?;
        Ok(result)
    }

    /// An attribute of a node. The stops are tested in this order: 14, 20, 15, 16.
    fn attribute(&mut self, node: Value, attribute: u8, parameter: Value) -> Result<Value, Stop> {
        let node = match node {
            Value::Node(Some(node)) => node,
            _ => return self.stop(Stop::Null, Due::OfNull(attribute, parameter)),
        };
        let occurrence = Occurrence {
            node,
            attribute,
            parameter,
        };
        let due = Due::Attribute(occurrence);
        let before = self.told.steps;
        let place = self.place;
        if let Some((value, entry)) = self.told.kept.find(&occurrence) {
            self.count(usize::from(attribute), due)?;
            let tree = &mut self.told.tree;
            let begun = tree.begin(place, occurrence, Source::Kept(entry));
            tree.end(place, begun, Some(value), 1, false);
            return Ok(value);
        }
        if self.told.open.iter().any(|(open, _)| *open == occurrence) {
            return self.stop(Stop::Circle, due);
        }
        // The budget is looked at before the depth, and the step is counted after both.
        if self.told.steps < self.budget && self.told.open.len() == MOST_OPEN {
            return self.stop(Stop::Depth, due);
        }
        self.count(usize::from(attribute), due)?;
        let definition = self.sheet.definition(node, attribute);
        let definition = definition.expect("an accepted sheet defines every pair");
        let source = match definition {
            Definition::Figure(_, at) => Source::Figure(at),
            Definition::Rule(_, at) => Source::Rule(at),
            Definition::Forward(_, at) => Source::Forward(at),
        };
        self.told.open.push((occurrence, source));
        let begun = self.told.tree.begin(place, occurrence, source);
        self.place = begun;
        let here = Some((node, parameter));
        let found = match definition {
            Definition::Figure(figure, _) => Ok(figure),
            Definition::Rule(rule, _) => self.base(rule, here),
            Definition::Forward(forward, _) => self
                .base(forward, here)
                .and_then(|node| self.attribute(node, attribute, parameter)),
        };
        self.place = place;
        let mut unkept = false;
        // What is open at a stop stays there, for the way that led to it.
        if let Ok(value) = found {
            self.told.open.pop();
            unkept = self.told.kept.write(occurrence, value).is_none();
        }
        let steps = self.told.steps - before;
        let tree = &mut self.told.tree;
        tree.end(place, begun, found.ok(), steps, unkept);
        found
    }
}

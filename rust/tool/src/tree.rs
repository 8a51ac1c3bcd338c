//! The tree of equations that a run leaves: a bounded part of it, with what is left out counted.

use sofretu::Value;

use crate::kept::Occurrence;

/// Where a value comes from. The numbers are the command's offset in the sheet, and the entry's in the store.
#[derive(Clone, Copy, Debug, PartialEq, Eq)]
pub enum Source {
    /// A kept entry.
    Kept(usize),
    /// A figure of the node.
    Figure(usize),
    /// A rule of the node's kind.
    Rule(usize),
    /// The forward of the node's kind.
    Forward(usize),
}

/// One equation: an attribute of a node, and its value.
#[derive(Clone, Debug)]
pub struct Equation {
    /// What was asked for.
    pub occurrence: Occurrence,
    /// Where its value comes from.
    pub source: Source,
    /// The value; none if the run stopped inside.
    pub value: Option<Value>,
    /// The counted steps that it took, with all that it needed.
    pub steps: u64,
    /// The equation that needed it; none if the question itself did.
    pub parent: Option<usize>,
    /// How many equations it lies inside.
    pub depth: usize,
    /// How many equations that it needed are left out, and their steps.
    pub left_out: (u64, u64),
    /// Whether its value was worked out and not kept, the store being full.
    pub unkept: bool,
}

/// Where the run is in the tree.
#[derive(Clone, Copy, Debug, PartialEq, Eq)]
pub enum Place {
    /// In the question.
    Question,
    /// In an equation of the tree.
    Inside(usize),
    /// In an equation that is left out.
    LeftOut,
}

/// The equations in the order in which they were begun: those first and least deep, within both limits.
#[derive(Clone, Debug)]
pub struct Tree {
    /// The equations.
    pub equations: Vec<Equation>,
    /// How many equations that the question itself needed are left out, and their steps.
    pub left_out: (u64, u64),
    most: usize,
    deepest: usize,
}

impl Tree {
    /// A tree of at most so many equations, each inside fewer than `deepest` others.
    pub fn new(most: usize, deepest: usize) -> Tree {
        Tree {
            equations: Vec::new(),
            left_out: (0, 0),
            most,
            deepest,
        }
    }

    /// Whether something is left out.
    pub fn is_cut(&self) -> bool {
        let cut = |(number, _): (u64, u64)| number > 0;
        cut(self.left_out) || self.equations.iter().any(|equation| cut(equation.left_out))
    }

    /// Begins an equation, and tells where its own needs go.
    pub fn begin(&mut self, place: Place, occurrence: Occurrence, source: Source) -> Place {
        let (parent, depth) = match place {
            Place::Question => (None, 0),
            Place::Inside(parent) => (Some(parent), self.equations[parent].depth + 1),
            Place::LeftOut => return Place::LeftOut,
        };
        if depth >= self.deepest || self.equations.len() >= self.most {
            return Place::LeftOut;
        }
        self.equations.push(Equation {
            occurrence,
            source,
            value: None,
            steps: 0,
            parent,
            depth,
            left_out: (0, 0),
            unkept: false,
        });
        Place::Inside(self.equations.len() - 1)
    }

    /// Ends the equation begun as `begun` at `place`, with its value if it has one.
    pub fn end(
        &mut self,
        place: Place,
        begun: Place,
        value: Option<Value>,
        steps: u64,
        unkept: bool,
    ) {
        let left_out = match (begun, place) {
            (Place::Inside(number), _) => {
                let equation = &mut self.equations[number];
                equation.value = value;
                equation.steps = steps;
                equation.unkept = unkept;
                return;
            }
            (_, Place::Inside(parent)) => &mut self.equations[parent].left_out,
            (_, Place::Question) => &mut self.left_out,
            (_, Place::LeftOut) => return,
        };
        left_out.0 += 1;
        left_out.1 += steps;
    }
}

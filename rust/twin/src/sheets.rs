//! The check of a sheet (stops 1 to 8) and the index that it fills; the look-up of a definition. Document 02, F-7, has the forwards.

use core::ops::Range;

use calls::{Refusal, Stop};

use crate::bytes::{four, two};
use crate::expressions::{Scope, Type};
use crate::values::Base;

const LONGEST_SHEET: usize = 65_536;
const MOST_ATTRIBUTES: usize = 32;
const MOST_NODES: usize = 1_024;
const KINDS: usize = 16;
/// Where the rules' part of the places starts.
const RULES: usize = MOST_NODES * MOST_ATTRIBUTES;
/// Where the forwards' part starts.
const FORWARDS: usize = RULES + KINDS * MOST_ATTRIBUTES;
const PLACES: usize = FORWARDS + KINDS;

/// What the check of a sheet notes.
pub struct Index {
    /// Where each figure stands, at node × 32 + attribute, each rule, at 32,768 + kind × 32 + attribute, and each forward, at
    /// 33,280 + kind: the offset of its command and one, or 0.
    places: [u16; PLACES],
    /// The width of each expression less one, at the offset of its first byte.
    pub widths: [u8; LONGEST_SHEET],
}

impl Index {
    pub(crate) const EMPTY: Index = Index {
        places: [0; PLACES],
        widths: [0; LONGEST_SHEET],
    };
}

/// A checked sheet.
#[derive(Clone, Copy)]
pub struct Sheet<'a> {
    pub bytes: &'a [u8],
    pub attributes: usize,
    pub nodes: usize,
    pub index: &'a Index,
}

/// What σ hands on for a declared pair.
pub enum Definition {
    /// The figure's four-byte form.
    Figure(u32),
    /// The offset of the rule's expression.
    Rule(usize),
    /// The offset of the forward's expression, for the attribute of its value with the same parameter.
    Forward(usize),
}

/// The parts of a sheet in their order. The forwards stand among the rules.
#[derive(Clone, Copy, PartialEq, Eq, PartialOrd, Ord)]
enum Part {
    Attributes,
    Nodes,
    Figures,
    Rules,
}

/// What is known of a sheet part way through its check.
struct Progress<'a> {
    bytes: &'a [u8],
    at: usize,
    part: Part,
    attributes: usize,
    nodes: usize,
}

impl<'a> Sheet<'a> {
    /// Checks a sheet and fills the index.
    pub fn check(bytes: &'a [u8], index: &'a mut Index) -> Result<Sheet<'a>, Refusal> {
        if bytes.len() > LONGEST_SHEET {
            return Err(Stop::SheetLength.into());
        }
        index.places[RULES..].fill(0);
        let mut progress = Progress {
            bytes,
            at: 0,
            part: Part::Attributes,
            attributes: 0,
            nodes: 0,
        };
        while !progress.ends()? {
            progress
                .command(index)
                .map_err(|stop| stop.at(progress.at as u64))?;
        }
        let sheet = Sheet {
            bytes,
            attributes: progress.attributes,
            nodes: progress.nodes,
            index,
        };
        match sheet.first_undefined() {
            Some(pair) => Err(Stop::NoDefinition.at(pair as u64)),
            None => Ok(sheet),
        }
    }

    /// Of the pairs without definition the one with the lowest attribute, and among those the lowest node, as node × 32 + attribute. One walk over the
    /// nodes keeps the best so far: a later node matters only with a lower attribute.
    fn first_undefined(&self) -> Option<usize> {
        let mut lowest = self.attributes;
        let mut first = None;
        for node in 0..self.nodes {
            let kind = self.kind(node);
            if self.index.places[FORWARDS + kind] != 0 {
                continue;
            }
            let row = node * MOST_ATTRIBUTES;
            let figures = &self.index.places[row..row + lowest];
            let rules = &self.index.places[RULES + kind * MOST_ATTRIBUTES..][..lowest];
            let undefined = figures
                .iter()
                .zip(rules)
                .position(|(figure, rule)| *figure == 0 && *rule == 0);
            if let Some(attribute) = undefined {
                lowest = attribute;
                first = Some(row + attribute);
            }
        }
        first
    }

    fn kind(&self, node: usize) -> usize {
        usize::from(self.bytes[3 * self.attributes + 2 * node + 1])
    }

    /// The definition in force for a declared pair: the figure if there is one, else the rule, else the forward.
    pub fn definition(&self, node: u16, attribute: u8) -> Definition {
        let node = usize::from(node);
        let figure = self.index.places[node * MOST_ATTRIBUTES + usize::from(attribute)] as usize;
        if figure != 0 {
            return Definition::Figure(four(self.bytes, figure + 3));
        }
        let kind = self.kind(node);
        let rule = RULES + kind * MOST_ATTRIBUTES + usize::from(attribute);
        match self.index.places[rule] as usize {
            0 => Definition::Forward(self.index.places[FORWARDS + kind] as usize + 3),
            rule => Definition::Rule(rule + 4),
        }
    }

    /// The type of an attribute's value.
    pub fn result(&self, attribute: u8) -> Base {
        Base::of(self.bytes[3 * usize::from(attribute) + 1])
    }

    /// The type of an attribute's parameter.
    pub fn parameter(&self, attribute: u8) -> Base {
        Base::of(self.bytes[3 * usize::from(attribute) + 2])
    }

    pub fn question_scope(&self) -> Scope<'a> {
        Scope {
            sheet: self.bytes,
            attributes: self.attributes,
            nodes: self.nodes,
            this_node: false,
            parameter: None,
        }
    }
}

impl Progress<'_> {
    /// Whether the end command is reached, with nothing after it.
    fn ends(&self) -> Result<bool, Refusal> {
        match self.bytes[self.at..] {
            [] => Err(Stop::Command.at(self.at as u64)),
            [0x5A] => Ok(true),
            [0x5A, ..] => Err(Stop::Command.at((self.at + 1) as u64)),
            _ => Ok(false),
        }
    }

    /// Takes in the command at the offset reached.
    fn command(&mut self, index: &mut Index) -> Result<(), Stop> {
        let (part, width) = match self.bytes[self.at] {
            0x41 => (Part::Attributes, 3),
            0x4E => (Part::Nodes, 2),
            0x56 => (Part::Figures, 8),
            0x52 => (Part::Rules, 5),
            0x46 => (Part::Rules, 4),
            _ => return Err(Stop::Command),
        };
        let command = self.bytes.get(self.at..self.at + width);
        let command = command.ok_or(Stop::Command)?;
        if part < self.part {
            return Err(Stop::Command);
        }
        let more = match part {
            Part::Attributes => self.attribute(command)?,
            Part::Nodes => self.node(command, index)?,
            Part::Figures => self.figure(command, index)?,
            Part::Rules if command[0] == 0x46 => self.forward(command, index)?,
            Part::Rules => self.rule(command, index)?,
        };
        self.part = part;
        self.at += width + more;
        Ok(())
    }

    fn attribute(&mut self, command: &[u8]) -> Result<usize, Stop> {
        if self.attributes == MOST_ATTRIBUTES {
            return Err(Stop::TooMany);
        }
        if command[1] > 3 || command[2] > 3 {
            return Err(Stop::Operand);
        }
        self.attributes += 1;
        Ok(0)
    }

    fn node(&mut self, command: &[u8], index: &mut Index) -> Result<usize, Stop> {
        if self.nodes == MOST_NODES {
            return Err(Stop::TooMany);
        }
        if usize::from(command[1]) >= KINDS {
            return Err(Stop::Operand);
        }
        index.places[self.nodes * MOST_ATTRIBUTES..][..MOST_ATTRIBUTES].fill(0);
        self.nodes += 1;
        Ok(0)
    }

    fn figure(&mut self, command: &[u8], index: &mut Index) -> Result<usize, Stop> {
        let node = usize::from(two(command, 1));
        let attribute = usize::from(command[3]);
        if node >= self.nodes || attribute >= self.attributes {
            return Err(Stop::Operand);
        }
        if !Base::of(self.bytes[3 * attribute + 1]).has(four(command, 4), self.nodes) {
            return Err(Stop::Operand);
        }
        self.define(&mut index.places[node * MOST_ATTRIBUTES + attribute])?;
        Ok(0)
    }

    /// The width of the rule's expression.
    fn rule(&mut self, command: &[u8], index: &mut Index) -> Result<usize, Stop> {
        let expression = self.expression_after(command)?;
        let kind = usize::from(command[1]);
        let attribute = usize::from(command[2]);
        if kind >= KINDS || attribute >= self.attributes {
            return Err(Stop::Operand);
        }
        let [result, parameter] = two(self.bytes, 3 * attribute + 1).to_le_bytes();
        let parameter = Some(Base::of(parameter));
        let place = RULES + kind * MOST_ATTRIBUTES + attribute;
        self.define_by(expression, parameter, Base::of(result), place, index)
    }

    /// The width of the forward's expression.
    fn forward(&mut self, command: &[u8], index: &mut Index) -> Result<usize, Stop> {
        let expression = self.expression_after(command)?;
        let kind = usize::from(command[1]);
        if kind >= KINDS {
            return Err(Stop::Operand);
        }
        self.define_by(expression, None, Base::Node, FORWARDS + kind, index)
    }

    /// Where the expression of a command stands that ends in the expression's length.
    fn expression_after(&self, command: &[u8]) -> Result<Range<usize>, Stop> {
        let start = self.at + command.len();
        let end = start + usize::from(two(command, command.len() - 2));
        match end <= self.bytes.len() {
            true => Ok(start..end),
            false => Err(Stop::Command),
        }
    }

    /// The expression of a rule or forward, of a type, becomes the definition at a place of the index. Its width is given.
    #[inline(always)]
    fn define_by(
        &self,
        expression: Range<usize>,
        parameter: Option<Base>,
        typ: Base,
        place: usize,
        index: &mut Index,
    ) -> Result<usize, Stop> {
        if index.places[place] != 0 {
            return Err(Stop::SecondDefinition);
        }
        let scope = Scope {
            sheet: self.bytes,
            attributes: self.attributes,
            nodes: self.nodes,
            this_node: true,
            parameter,
        };
        let bytes = &self.bytes[expression.clone()];
        let found = scope.read_whole(bytes, &mut index.widths[expression]);
        if found.ok_or(Stop::RuleForm)? != Type::base(typ) {
            return Err(Stop::RuleType);
        }
        self.define(&mut index.places[place])?;
        Ok(bytes.len())
    }

    /// The command at the offset reached becomes the definition at a place of the index.
    fn define(&self, place: &mut u16) -> Result<(), Stop> {
        if *place != 0 {
            return Err(Stop::SecondDefinition);
        }
        *place = self.at as u16 + 1;
        Ok(())
    }
}

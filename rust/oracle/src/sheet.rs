//! Document 01, "The sheet", and stops 1 to 8 of "Stops by origin"; document 02, F-1 and F-7.

use crate::expr::{take, Attribute, Expr, Scope, Use, LONGEST};
use crate::stop::{Reason, Stop};
use crate::values::{Base, Type, Value};

/// "At most 65,536 bytes."
pub const LONGEST_SHEET: usize = 65_536;
/// Attributes: "at most 32".
pub const MOST_ATTRIBUTES: usize = 32;
/// Nodes: "at most 1,024".
pub const MOST_NODES: usize = 1_024;
/// "Kind 0 to 15".
const KINDS: usize = 16;

/// An accepted sheet, or what has been read of one.
#[derive(Debug, Default)]
pub struct Sheet {
    attributes: Vec<Attribute>,
    /// The kind of each node.
    nodes: Vec<u8>,
    /// By node and declared attribute.
    figures: Vec<Option<Value>>,
    /// By kind and declared attribute; none before the first rule.
    rules: Vec<Option<Expr>>,
    /// By kind.
    forwards: [Option<Expr>; KINDS],
    deepest_expression: usize,
}

/// σ(n, a, v): "the figure for (n, a) if there is one, else the rule for n's kind and a". "Where a pair has neither figure nor rule and its kind
/// has a forward f, σ(n, a, v) is attribute a of f with parameter v" (document 02, F-7).
#[derive(Clone, Copy, Debug)]
pub enum Definition<'a> {
    Figure(Value),
    Rule(&'a Expr),
    /// f.
    Forward(&'a Expr),
}

/// "Commands of one byte with operands of fixed widths".
#[derive(Clone, Copy, PartialEq, Eq)]
enum Command {
    Attribute,
    Node,
    Figure,
    Rule,
    Forward,
    End,
}

/// "In this order of kind". A forward "stands among the rules in any order" (document 02, F-7).
#[derive(Clone, Copy, PartialEq, Eq, PartialOrd, Ord)]
enum Part {
    Attributes,
    Nodes,
    Figures,
    RulesAndForwards,
    End,
}

impl Command {
    fn from_code(code: u8) -> Option<Command> {
        match code {
            0x41 => Some(Command::Attribute),
            0x4E => Some(Command::Node),
            0x56 => Some(Command::Figure),
            0x52 => Some(Command::Rule),
            0x46 => Some(Command::Forward),
            0x5A => Some(Command::End),
            _ => None,
        }
    }

    fn part(self) -> Part {
        match self {
            Command::Attribute => Part::Attributes,
            Command::Node => Part::Nodes,
            Command::Figure => Part::Figures,
            Command::Rule | Command::Forward => Part::RulesAndForwards,
            Command::End => Part::End,
        }
    }

    /// How many operand bytes the command has that stands before `rest`. The expression of a rule or forward is among them, "with the length it
    /// states, good or bad".
    fn operands(self, rest: &[u8]) -> Option<usize> {
        // The length has two bytes and stands after some others.
        let with_length = |others: usize| {
            let (length, _) = take::<2>(rest.get(others..)?)?;
            Some(others + 2 + usize::from(u16::from_le_bytes(length)))
        };
        match self {
            Command::Attribute => Some(2),
            Command::Node => Some(1),
            Command::Figure => Some(7),
            Command::Rule => with_length(2),
            Command::Forward => with_length(1),
            Command::End => Some(0),
        }
    }
}

impl Sheet {
    /// The sheet that `bytes` write, or the first of stops 1 to 8: "1, then commands from the front and in each command 2 to 7, then 8".
    pub fn read(bytes: &[u8]) -> Result<Sheet, Stop> {
        if bytes.len() > LONGEST_SHEET {
            return Err(Stop::of(Reason::SheetLength));
        }
        let mut sheet = Sheet {
            attributes: Vec::with_capacity(MOST_ATTRIBUTES),
            ..Sheet::default()
        };
        let mut at = 0;
        let mut reached = Part::Attributes;
        while reached != Part::End {
            // Stop 2: an "unknown or out-of-order command", a "command cut by the sheet's end", or "no end command": then `at` is "the sheet's
            // length where the end is lacking".
            let out_of_place = Stop::at(Reason::Command, at);
            let (code, rest) = bytes[at..].split_first().ok_or(out_of_place)?;
            let command = Command::from_code(*code).ok_or(out_of_place)?;
            if command.part() < reached {
                return Err(out_of_place);
            }
            let width = command.operands(rest).ok_or(out_of_place)?;
            let operands = rest.get(..width).ok_or(out_of_place)?;
            sheet
                .command(command, operands)
                .map_err(|reason| Stop::at(reason, at))?;
            reached = command.part();
            at += 1 + width;
        }
        // Stop 2 again: "the first byte after it where bytes follow".
        if at < bytes.len() {
            return Err(Stop::at(Reason::Command, at));
        }
        match sheet.first_undefined() {
            Some(pair) => Err(Stop::at(Reason::NoDefinition, pair)),
            None => Ok(sheet),
        }
    }

    /// Takes in one whole command: stops 3 to 7, of which each function below tests the smaller first.
    fn command(&mut self, command: Command, operands: &[u8]) -> Result<(), Reason> {
        match command {
            Command::Attribute => self.attribute(operands[0], operands[1]),
            Command::Node => self.node(operands[0]),
            Command::Figure => {
                let node = u16::from_le_bytes([operands[0], operands[1]]);
                let value = [operands[3], operands[4], operands[5], operands[6]];
                self.figure(node, operands[2], value)
            }
            Command::Rule => self.rule(operands[0], operands[1], &operands[4..]),
            Command::Forward => self.forward(operands[0], &operands[3..]),
            Command::End => Ok(()),
        }
    }

    /// "0x41 attribute: result type (1 byte), parameter type (1)."
    fn attribute(&mut self, result: u8, parameter: u8) -> Result<(), Reason> {
        if self.attributes.len() == MOST_ATTRIBUTES {
            return Err(Reason::TooMany);
        }
        let result = Base::from_code(result).ok_or(Reason::Operand)?;
        let parameter = Base::from_code(parameter).ok_or(Reason::Operand)?;
        self.attributes.push(Attribute { result, parameter });
        Ok(())
    }

    /// "0x4E node: kind 0 to 15 (1)."
    fn node(&mut self, kind: u8) -> Result<(), Reason> {
        if self.nodes.len() == MOST_NODES {
            return Err(Reason::TooMany);
        }
        if usize::from(kind) >= KINDS {
            return Err(Reason::Operand);
        }
        self.nodes.push(kind);
        self.figures
            .resize(self.nodes.len() * self.attributes.len(), None);
        Ok(())
    }

    /// "0x56 figure: node (2), attribute (1), value (4) of the attribute's result type."
    fn figure(&mut self, node: u16, attribute: u8, value: [u8; 4]) -> Result<(), Reason> {
        if usize::from(node) >= self.nodes.len() {
            return Err(Reason::Operand);
        }
        let declared = self.declared(attribute).ok_or(Reason::Operand)?;
        let value =
            Value::from_bytes(declared.result, value, self.nodes.len()).ok_or(Reason::Operand)?;
        let place = self.place(usize::from(node), attribute);
        match self.figures[place].replace(value) {
            Some(_) => Err(Reason::SecondDefinition),
            None => Ok(()),
        }
    }

    /// "0x52 rule: kind (1), attribute (1), length 1 to 256 (2), then an expression of exactly that length."
    fn rule(&mut self, kind: u8, attribute: u8, written: &[u8]) -> Result<(), Reason> {
        if usize::from(kind) >= KINDS {
            return Err(Reason::Operand);
        }
        let declared = self.declared(attribute).ok_or(Reason::Operand)?;
        if self.rules.is_empty() {
            let places = KINDS * self.attributes.len();
            self.rules.resize(places, None);
        }
        let place = self.place(usize::from(kind), attribute);
        if self.rules[place].is_some() {
            return Err(Reason::SecondDefinition);
        }
        let usage = Use::Rule {
            parameter: declared.parameter,
        };
        self.rules[place] = Some(self.expression(written, usage, declared.result)?);
        Ok(())
    }

    /// 0x46 forward: "kind (1), length 1 to 256 (2), expression. The expression has type Node" (document 02, F-7).
    fn forward(&mut self, kind: u8, written: &[u8]) -> Result<(), Reason> {
        let kind = usize::from(kind);
        match self.forwards.get(kind) {
            None => return Err(Reason::Operand),
            Some(Some(_)) => return Err(Reason::SecondDefinition),
            Some(None) => {}
        }
        self.forwards[kind] = Some(self.expression(written, Use::Forward, Base::Node)?);
        Ok(())
    }

    /// The expression of a rule or forward, of a type: stops 6 and 7. "A bad length, form or 0x31 is 6, a type other than Node is 7" of a forward
    /// (document 02, F-7).
    fn expression(&mut self, written: &[u8], usage: Use, typ: Base) -> Result<Expr, Reason> {
        if written.is_empty() || written.len() > LONGEST {
            return Err(Reason::RuleForm);
        }
        let scope = Scope {
            usage,
            ..self.scope()
        };
        let expr = Expr::read(written, scope).ok_or(Reason::RuleForm)?;
        if expr.type_of(scope) != Some(Type::Base(typ)) {
            return Err(Reason::RuleType);
        }
        self.deepest_expression = self.deepest_expression.max(expr.depth());
        Ok(expr)
    }

    /// Stop 8's place, node × 32 + attribute: of the pairs without definition "the one with the lowest attribute, and among those the lowest node"
    /// (document 02, F-1).
    fn first_undefined(&self) -> Option<usize> {
        let lowest = |node: usize| {
            let mut attributes = 0..self.attributes.len() as u8;
            let attribute = attributes.find(|a| self.lookup(node, *a).is_none())?;
            Some((attribute, node))
        };
        let (attribute, node) = (0..self.nodes.len()).filter_map(lowest).min()?;
        Some(node * MOST_ATTRIBUTES + usize::from(attribute))
    }

    /// The definition of a declared pair, where there is one. "A pair is missing only if its kind has no forward either" (document 02, F-7).
    fn lookup(&self, node: usize, attribute: u8) -> Option<Definition<'_>> {
        if let Some(value) = self.figures[self.place(node, attribute)] {
            return Some(Definition::Figure(value));
        }
        let kind = usize::from(self.nodes[node]);
        let rule = self.rules.get(self.place(kind, attribute));
        if let Some(Some(expr)) = rule {
            return Some(Definition::Rule(expr));
        }
        self.forwards[kind].as_ref().map(Definition::Forward)
    }

    /// The definition in force: "every declared pair (n, a) must have one".
    pub fn definition(&self, node: u16, attribute: u8) -> Definition<'_> {
        self.lookup(usize::from(node), attribute)
            .expect("every pair of an accepted sheet has a definition")
    }

    /// The declaration of an attribute, where there is one.
    pub fn declared(&self, attribute: u8) -> Option<Attribute> {
        self.attributes.get(usize::from(attribute)).copied()
    }

    /// The declarations in their order.
    pub fn attributes(&self) -> &[Attribute] {
        &self.attributes
    }

    /// How many nodes are declared.
    pub fn node_count(&self) -> usize {
        self.nodes.len()
    }

    /// The scope of a question.
    pub fn scope(&self) -> Scope<'_> {
        Scope {
            attributes: &self.attributes,
            nodes: self.nodes.len(),
            usage: Use::Question,
        }
    }

    /// The place of a declared attribute in the row of a node or kind.
    fn place(&self, row: usize, attribute: u8) -> usize {
        row * self.attributes.len() + usize::from(attribute)
    }

    /// The depth of the deepest rule or forward.
    pub fn deepest_expression(&self) -> usize {
        self.deepest_expression
    }
}

//! The listing of a sheet: lines that share out all its bytes, and what they say together.
//!
//! Whatever the bytes are, each belongs to one line. A command whose extent is known is one line, faulty or not, and the listing goes on after it. Where no
//! command can be read, one line has all the rest.

use sofretu::{Stop, Type};

use crate::expression::{value, Attribute, Expr, Kind, Part, LONGEST};
use crate::sheet::Sheet;
use crate::words;

/// How many attributes and nodes a sheet can declare, and how many kinds there are.
const MOST_ATTRIBUTES: usize = 32;
const MOST_NODES: usize = 1_024;
const KINDS: u8 = 16;

/// The most bytes of a sheet.
pub const MOST_BYTES: usize = 65_536;

/// What a line shows.
#[derive(Clone, Copy, Debug, PartialEq, Eq)]
pub enum Shows {
    /// An attribute's declaration.
    Attribute,
    /// A node's declaration.
    Node,
    /// A figure.
    Figure,
    /// A rule.
    Rule,
    /// A forward.
    Forward,
    /// The end.
    End,
    /// Bytes that are no command: unknown, cut, or after the end. Where the end is missing, none.
    Rest,
}

/// A line of a listing.
#[derive(Clone, Debug)]
pub struct Line {
    /// The offset of its first byte.
    pub at: usize,
    /// How many bytes it has.
    pub length: usize,
    /// What it shows.
    pub shows: Shows,
    /// What its bytes say.
    pub text: String,
    /// What is wrong with them: the stop and the reason.
    pub fault: Option<(Stop, String)>,
}

/// All lines of a sheet, and what they say.
#[derive(Clone, Debug, Default)]
pub struct Listing {
    /// The lines, which share out the bytes in their order.
    pub lines: Vec<Line>,
    /// What the commands say.
    pub sheet: Sheet,
    /// The furthest part of the order of kinds that was reached.
    reached: u8,
}

type Fault = Option<(Stop, String)>;

fn fault(stop: Stop, why: impl Into<String>) -> Fault {
    Some((stop, why.into()))
}

/// The extent of the command that bytes begin with, and what it shows. None if they begin with no whole command.
fn extent(bytes: &[u8]) -> Option<(Shows, usize)> {
    let stated = |front: usize| {
        let length = bytes.get(front..front + 2)?;
        Some(front + 2 + usize::from(u16::from_le_bytes([length[0], length[1]])))
    };
    let (shows, length) = match bytes.first()? {
        0x41 => (Shows::Attribute, 3),
        0x4E => (Shows::Node, 2),
        0x56 => (Shows::Figure, 8),
        0x52 => (Shows::Rule, stated(3)?),
        0x46 => (Shows::Forward, stated(2)?),
        0x5A => (Shows::End, 1),
        _ => return None,
    };
    (length <= bytes.len()).then_some((shows, length))
}

impl Shows {
    /// Its place in the order of kinds: rules and forwards stand among each other.
    fn part(self) -> u8 {
        match self {
            Shows::Attribute => 0,
            Shows::Node => 1,
            Shows::Figure => 2,
            Shows::Rule | Shows::Forward => 3,
            Shows::End | Shows::Rest => 4,
        }
    }

    fn name(self) -> &'static str {
        match self {
            Shows::Attribute => "an attribute",
            Shows::Node => "a node",
            Shows::Figure => "a figure",
            Shows::Rule => "a rule",
            Shows::Forward => "a forward",
            Shows::End | Shows::Rest => "the end",
        }
    }
}

impl Listing {
    /// The listing of any bytes.
    pub fn of(bytes: &[u8]) -> Listing {
        let mut listing = Listing::default();
        let mut at = 0;
        while let Some((shows, length)) = extent(&bytes[at..]) {
            listing.command(shows, at, &bytes[at..at + length]);
            at += length;
            if shows == Shows::End {
                if at < bytes.len() {
                    listing.rest(bytes, at, "after the end");
                }
                return listing;
            }
        }
        match bytes.get(at) {
            None => listing.rest(bytes, at, "the end command is missing"),
            Some(0x41 | 0x4E | 0x56 | 0x52 | 0x46) => listing.rest(bytes, at, "a command is cut"),
            Some(other) => {
                let why = format!("0x{other:02x} is no command");
                listing.rest(bytes, at, &why);
            }
        }
        listing
    }

    /// The line that begins at an offset.
    pub fn line_at(&self, at: usize) -> Option<usize> {
        let first = self.lines.partition_point(|line| line.at < at);
        (self.lines.get(first)?.at == at).then_some(first)
    }

    /// How many lines show this.
    pub fn count(&self, shows: Shows) -> usize {
        self.lines.iter().filter(|line| line.shows == shows).count()
    }

    /// The line of all that is left.
    fn rest(&mut self, bytes: &[u8], at: usize, why: &str) {
        let length = bytes.len() - at;
        let text = match length {
            0 => String::new(),
            _ => words::count(length as u64, "byte"),
        };
        self.lines.push(Line {
            at,
            length,
            shows: Shows::Rest,
            text,
            fault: fault(Stop::Command, why),
        });
    }

    fn command(&mut self, shows: Shows, at: usize, bytes: &[u8]) {
        let misplaced = (shows.part() < self.reached).then(|| {
            let why = format!("{} belongs further to the front", shows.name());
            (Stop::Command, why)
        });
        self.reached = self.reached.max(shows.part());
        let (text, found) = match (shows, bytes) {
            (Shows::Attribute, &[_, result, parameter]) => self.attribute(result, parameter),
            (Shows::Node, &[_, kind]) => self.node(kind),
            (Shows::Figure, &[_, n0, n1, attribute, ref word @ ..]) => {
                let word = word.try_into().expect("a figure has 8 bytes");
                self.figure(at, u16::from_le_bytes([n0, n1]), attribute, word)
            }
            (Shows::Rule, &[_, kind, attribute, _, _, ref expr @ ..]) => {
                self.rule(at, kind, attribute, expr)
            }
            (Shows::Forward, &[_, kind, _, _, ref expr @ ..]) => self.forward(at, kind, expr),
            _ => ("end".into(), None),
        };
        self.lines.push(Line {
            at,
            length: bytes.len(),
            shows,
            text,
            fault: misplaced.or(found),
        });
    }

    fn attribute(&mut self, result: u8, parameter: u8) -> (String, Fault) {
        let number = self.sheet.attributes.len();
        let types = Type::from_code(result).zip(Type::from_code(parameter));
        let declared = types.map(|(result, parameter)| Attribute { result, parameter });
        let text = match declared {
            Some(attribute) => words::declaration(number, attribute),
            None => format!("a{number}: result type {result}, parameter type {parameter}"),
        };
        if number == MOST_ATTRIBUTES {
            return (
                text,
                fault(Stop::TooMany, "a sheet has at most 32 attributes"),
            );
        }
        self.sheet.attributes.push(declared);
        match declared {
            Some(_) => (text, None),
            None => (text, fault(Stop::Operand, "a type is 0 to 3")),
        }
    }

    fn node(&mut self, kind: u8) -> (String, Fault) {
        let number = self.sheet.nodes.len();
        let text = format!("n{number}: k{kind}");
        if number == MOST_NODES {
            return (
                text,
                fault(Stop::TooMany, "a sheet has at most 1,024 nodes"),
            );
        }
        self.sheet.nodes.push(kind);
        (text, kind_fault(kind))
    }

    fn figure(&mut self, at: usize, node: u16, attribute: u8, word: [u8; 4]) -> (String, Fault) {
        let nodes = self.sheet.nodes.len();
        let hex = words::hex(&word, 4);
        let unread = format!("n{node}.a{attribute} = {hex}");
        if usize::from(node) >= nodes {
            return (
                unread,
                fault(Stop::Operand, format!("n{node} is not declared")),
            );
        }
        let declared = match self.sheet.scope(Part::Question).attribute(attribute) {
            Ok(declared) => declared,
            Err(why) => return (unread, fault(Stop::Operand, why)),
        };
        let Some(figure) = value(declared.result, word, nodes) else {
            let why = format!("{hex} is no {}", declared.result);
            return (unread, fault(Stop::Operand, why));
        };
        let text = format!("n{node}.a{attribute} = {}", words::value(figure));
        let figures = &mut self.sheet.figures;
        let second = second(figures.get(&(node, attribute)).map(|(_, at)| *at), "figure");
        figures.entry((node, attribute)).or_insert((figure, at));
        (text, second)
    }

    fn rule(&mut self, at: usize, kind: u8, attribute: u8, bytes: &[u8]) -> (String, Fault) {
        let name = format!("k{kind}.a{attribute}");
        let declared = self.sheet.scope(Part::Question).attribute(attribute);
        // What cannot be typed is shown as a rule without parameter type.
        let parameter = declared.clone().map_or(Type::Unit, |found| found.parameter);
        let (text, read) = self.expression(&name, " =", bytes, Part::Rule(parameter));
        let declared = match declared {
            _ if kind >= KINDS => return (text, kind_fault(kind)),
            Ok(declared) => declared,
            Err(why) => return (text, fault(Stop::Operand, why)),
        };
        let before = self.sheet.rules.get(&(kind, attribute)).map(|(_, at)| *at);
        let found = second(before, "rule").or_else(|| wrong(&read, declared.result));
        if let (None, Ok((expr, _))) = (&found, read) {
            self.sheet.rules.insert((kind, attribute), (expr, at));
        }
        (text, found)
    }

    fn forward(&mut self, at: usize, kind: u8, bytes: &[u8]) -> (String, Fault) {
        let (text, read) = self.expression(&format!("k{kind}"), " ->", bytes, Part::Forward);
        if kind >= KINDS {
            return (text, kind_fault(kind));
        }
        let before = self.sheet.forwards.get(&kind).map(|(_, at)| *at);
        let found = second(before, "forward").or_else(|| wrong(&read, Type::Node));
        if let (None, Ok((expr, _))) = (&found, read) {
            self.sheet.forwards.insert(kind, (expr, at));
        }
        (text, found)
    }

    /// The text of a definition by an expression, and the expression with its type, or why there is none.
    fn expression(&self, name: &str, sign: &str, bytes: &[u8], part: Part) -> (String, Read) {
        let scope = self.sheet.scope(part);
        match Expr::read(bytes, scope) {
            Ok(expr) => {
                let text = format!("{name}{sign} {}", words::expression(&expr));
                let kind = expr.kind(scope);
                (text, Ok((expr, kind)))
            }
            Err(why) => {
                let text = format!("{name}{sign} {}", words::hex(bytes, LONGEST));
                (text.trim_end().into(), Err(why))
            }
        }
    }
}

/// An expression and its type; why it has no type; why it is none.
type Read = Result<(Expr, Result<Kind, String>), String>;

fn wrong(read: &Read, wanted: Type) -> Fault {
    match read {
        Err(why) => fault(Stop::RuleForm, why.as_str()),
        Ok((_, Err(why))) => fault(Stop::RuleType, why.as_str()),
        Ok((_, Ok(found))) if *found != Kind::Base(wanted) => {
            let why = format!("it is of type {}, and not {wanted}", found.words());
            fault(Stop::RuleType, why)
        }
        Ok(_) => None,
    }
}

fn second(before: Option<usize>, what: &str) -> Fault {
    let at = before?;
    fault(
        Stop::SecondDefinition,
        format!("the {what} at {at} defines it already"),
    )
}

fn kind_fault(kind: u8) -> Fault {
    match kind < KINDS {
        true => None,
        false => fault(Stop::Operand, format!("a kind is 0 to 15, and not {kind}")),
    }
}

//! The question that a command line puts: a node, an attribute and a parameter.

use std::ffi::OsStr;

use sofretu::{Type, Value};

use crate::expression::{word, Attribute};
use crate::failure::Failure;
use crate::kept::Occurrence;
use crate::sheet::Sheet;
use crate::usage::Line;
use crate::words;

/// The number after a letter, or alone.
fn number<N: std::str::FromStr>(word: &OsStr, letter: char) -> Option<N> {
    let text = word.to_str()?;
    let digits = text.strip_prefix(letter).unwrap_or(text);
    let plain = digits.bytes().all(|digit| digit.is_ascii_digit());
    digits.parse().ok().filter(|_| plain)
}

/// The declared node that a word names.
fn node(line: &Line, sheet: &Sheet, word: &OsStr) -> Result<u16, Failure> {
    let named = number(word, 'n').ok_or_else(|| line.wrong(&format!("{word:?} is no node")))?;
    let nodes = sheet.nodes.len();
    match usize::from(named) < nodes {
        true => Ok(named),
        false => Err(line.wrong(&format!("no n{named}: the sheet has {}", range('n', nodes)))),
    }
}

/// The declared attribute that a word of the line names.
pub fn attribute(line: &Line, sheet: &Sheet, place: usize) -> Result<(u8, Attribute), Failure> {
    let word = line.word(place).unwrap_or_default();
    let wrong = || line.wrong(&format!("{word:?} is no attribute"));
    let named: u8 = number(word, 'a').ok_or_else(wrong)?;
    let missing = || {
        let declared = range('a', sheet.attributes.len());
        line.wrong(&format!("no a{named}: the sheet has {declared}"))
    };
    Ok((named, sheet.attribute(named).ok_or_else(missing)?))
}

/// What is declared: `no nodes`, `n0`, `n0 to n2`.
fn range(letter: char, declared: usize) -> String {
    match declared {
        0 => "none".into(),
        1 => format!("{letter}0"),
        _ => format!("{letter}0 to {letter}{}", declared - 1),
    }
}

/// The parameter that a word of the line gives for an attribute.
pub fn parameter(
    line: &Line,
    sheet: &Sheet,
    (attribute, declared): (u8, Attribute),
    place: usize,
) -> Result<Value, Failure> {
    let of = declared.parameter;
    let word = match (line.word(place), of) {
        (None, Type::Unit) => return Ok(Value::Unit),
        (None, _) => {
            let what = format!("a{attribute} takes a parameter of type {of}");
            return Err(line.wrong(&what));
        }
        (Some(word), _) => word,
    };
    let text = word.to_str().unwrap_or("");
    let read = match of {
        Type::Unit => (text == "unit").then_some(Value::Unit),
        Type::Bool => text.parse().ok().map(Value::Bool),
        Type::Int => text.replace([',', '_'], "").parse().ok().map(Value::Int),
        Type::Node if text == "null" => Some(Value::Node(None)),
        Type::Node => Some(Value::Node(Some(node(line, sheet, word)?))),
    };
    let wrong = || match of {
        Type::Unit => line.wrong(&format!("a{attribute} takes no parameter")),
        _ => line.wrong(&format!(
            "a{attribute} takes a parameter of type {of}, and not {word:?}"
        )),
    };
    read.ok_or_else(wrong)
}

/// The occurrence that the line asks for by its words from the second on: node, attribute, parameter.
pub fn occurrence(line: &Line, sheet: &Sheet) -> Result<Occurrence, Failure> {
    let node = node(line, sheet, line.word(1).unwrap_or_default())?;
    let named = attribute(line, sheet, 2)?;
    Ok(Occurrence {
        node,
        attribute: named.0,
        parameter: parameter(line, sheet, named, 3)?,
    })
}

impl Occurrence {
    /// The bytes of the question for it.
    pub fn question(&self) -> Vec<u8> {
        let [n0, n1] = self.node.to_le_bytes();
        let [w0, w1, w2, w3] = word(self.parameter);
        let mut question = vec![0x22, self.attribute, 0x13, n0, n1];
        match self.parameter {
            Value::Unit => question.push(0x10),
            Value::Bool(_) => question.extend([0x11, w0]),
            Value::Int(_) => question.extend([0x12, w0, w1, w2, w3]),
            Value::Node(_) => question.extend([0x13, w0, w1]),
        }
        question
    }

    /// `n1.a2`, `n1.a4(5)`.
    pub fn words(&self) -> String {
        words::occurrence(self.node, self.attribute, self.parameter)
    }
}

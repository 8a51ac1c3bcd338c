//! Questions, good and bad.

use oracle::expr::{Use, LONGEST};
use oracle::sheet::MOST_ATTRIBUTES;
use oracle::values::{Base, Type, Value};

use super::draft::{base_value, Draft};
use super::faults::misfit;
use super::rng::Rng;
use super::sums::literals_at_an_end;
use super::writer::{apply, function_types, literal, number, unit_of_length, Writer};
use crate::write::{if_else, of};

/// A question, refused once in six or so.
pub fn question(rng: &mut Rng, draft: &Draft) -> Vec<u8> {
    if let Some(colliding) = &draft.colliding {
        if rng.once_in(2) {
            return colliding.question(rng);
        }
    }
    if !draft.questions.is_empty() && rng.once_in(2) {
        return draft.questions[rng.below(draft.questions.len())].clone();
    }
    let attributes = draft.attributes.len().min(MOST_ATTRIBUTES);
    let pairs = attributes > 0 && !draft.nodes.is_empty();
    let mut writer = Writer {
        rng,
        draft,
        usage: Use::Question,
        below: attributes,
    };
    match writer.rng.below(12) {
        0 | 1 => refused(&mut writer),
        2..=5 if pairs => {
            let attribute = attribute(writer.rng, attributes);
            occurrence(&mut writer, attribute)
        }
        6..=8 if pairs => {
            let attribute = attribute(writer.rng, attributes);
            two_occurrences(&mut writer, attribute)
        }
        9 if writer.rng.once_in(3) => literals_at_an_end(writer.rng),
        _ => {
            let base = writer.rng.pick(&Base::ALL);
            let room = writer.rng.pick(&[1, 10, 20, 40, 80, LONGEST]);
            writer.expr(&Type::Base(base), room)
        }
    }
}

/// An attribute's number, where there are so many, every second time among the last five: what stands before them may be idle.
fn attribute(rng: &mut Rng, attributes: usize) -> u8 {
    let among = match rng.below(2) {
        0 => attributes.min(5),
        _ => attributes,
    };
    (attributes - 1 - rng.below(among)) as u8
}

/// An attribute of a node, the first and the last more often than the others.
fn occurrence(writer: &mut Writer, attribute: u8) -> Vec<u8> {
    let nodes = writer.draft.nodes.len();
    let node = match writer.rng.below(12) {
        0 => None,
        1 | 2 => Some(0),
        3..=5 => Some(nodes as u16 - 1),
        _ => Some(writer.rng.below(nodes) as u16),
    };
    let parameter = match writer.draft.attributes[usize::from(attribute)].parameter {
        Base::Int if writer.rng.once_in(2) => {
            let around = [0, 1, 5, 8, 10, 12, 14, 17, 30, 61, 62, 63, 64, 65, 100, 400];
            number(writer.rng.pick(&around))
        }
        base => literal(base_value(writer.rng, base, nodes)),
    };
    of(&literal(Value::Node(node)), attribute, &parameter)
}

fn two_occurrences(writer: &mut Writer, attribute: u8) -> Vec<u8> {
    let one = occurrence(writer, attribute);
    let other = occurrence(writer, attribute);
    match writer.draft.attributes[usize::from(attribute)].result {
        Base::Unit => if_else(&[0x11, 0], &one, &other),
        Base::Bool => if_else(&one, &other, &one),
        Base::Int => apply(writer.rng.pick(&[0, 1, 4, 5]), &[&one, &other]),
        Base::Node => apply(2, &[&one, &other]),
    }
}

/// A question that 12 or 13 holds of, most of the time.
fn refused(writer: &mut Writer) -> Vec<u8> {
    let base = writer.rng.pick(&Base::ALL);
    let mut good = writer.expr(&Type::Base(base), 30);
    match writer.rng.below(10) {
        0 => Vec::new(),
        1 => unit_of_length(LONGEST + writer.rng.below(3)),
        2 => {
            let head = writer.rng.pick(&[0x20, 0x21, 0x30, 0x31, 0x5A]);
            vec![head; writer.rng.between(1, 300)]
        }
        3 => {
            good.push(writer.rng.byte());
            good
        }
        4 => {
            good.truncate(writer.rng.below(good.len()));
            good
        }
        5 => {
            let at = writer.rng.below(good.len());
            good[at] = writer.rng.byte();
            good
        }
        6 => misfit(writer),
        7 => {
            let place = writer.rng.below(7);
            writer.expr(&function_types()[place], 20)
        }
        8 => {
            let undeclared = (writer.draft.nodes.len() as u16).to_le_bytes();
            vec![0x13, undeclared[0], undeclared[1]]
        }
        _ => (0..writer.rng.between(1, 30))
            .map(|_| writer.rng.byte())
            .collect(),
    }
}

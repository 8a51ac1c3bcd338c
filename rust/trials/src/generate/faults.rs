//! Sheets with something wrong.

use oracle::expr::{Use, LONGEST};
use oracle::sheet::{MOST_ATTRIBUTES, MOST_NODES};
use oracle::values::{Base, Type};

use super::draft::Draft;
use super::rng::Rng;
use super::writer::{apply, function_types, unit_of_length, Writer};
use crate::write::{forward, if_else, of};

/// A sheet whose commands are dropped, repeated, swapped, cut or given other operands.
pub fn mangled(rng: &mut Rng, draft: &Draft) -> Vec<u8> {
    let mut commands = draft.commands();
    for _ in 0..rng.between(1, 2) {
        if commands.is_empty() {
            break;
        }
        let place = rng.below(commands.len());
        let other = rng.below(commands.len());
        match rng.below(8) {
            0 => drop(commands.remove(place)),
            1 | 2 => commands.insert(place, commands[place].clone()),
            3 => commands.swap(place, other),
            4 => {
                commands.truncate(place + 1);
                let length = rng.below(commands[place].len());
                commands[place].truncate(length);
                commands.retain(|command| !command.is_empty());
            }
            _ => set_byte(rng, &mut commands[place]),
        }
    }
    commands.concat()
}

fn set_byte(rng: &mut Rng, command: &mut [u8]) {
    let at = rng.below(command.len());
    command[at] = match rng.below(4) {
        0 => command[at].wrapping_add(1),
        1 => rng.pick(&[0, 1, 3, 4, 15, 16, 31, 32, 255]),
        _ => rng.byte(),
    };
}

/// A sheet damaged byte by byte.
pub fn damaged(rng: &mut Rng, mut bytes: Vec<u8>) -> Vec<u8> {
    for _ in 0..rng.between(1, 3) {
        let at = rng.below(bytes.len() + 1);
        match rng.below(6) {
            0 => bytes.insert(at, rng.byte()),
            1 => bytes.truncate(at),
            2 => bytes.push(rng.pick(&[0x41, 0x4E, 0x56, 0x52, 0x46, 0x5A, 0x00])),
            _ if at == bytes.len() => drop(bytes.pop()),
            3 => drop(bytes.remove(at)),
            4 => bytes[at] ^= 1 << rng.below(8),
            _ => bytes[at] = rng.byte(),
        }
    }
    bytes
}

/// A sheet with too many attributes or nodes, pairs without definition, or a rule of bad length, form or type.
pub fn spoilt(rng: &mut Rng, mut draft: Draft) -> Draft {
    match rng.below(8) {
        0 => {
            let attribute = rng.pick(&[(Base::Unit, Base::Unit), (Base::Int, Base::Node)]);
            while draft.attributes.len() <= MOST_ATTRIBUTES {
                draft.attribute(attribute.0, attribute.1);
            }
        }
        1 => {
            let kind = rng.pick(&[0, 15, 16]);
            draft.nodes.resize(MOST_NODES, 0);
            draft.node(kind);
        }
        2 | 3 if draft.definitions() > 0 => {
            for _ in 0..rng.between(1, 4) {
                undefine(rng, &mut draft);
            }
        }
        _ if !draft.rules.is_empty() => {
            let place = rng.below(draft.rules.len());
            draft.rules[place].2 = bad_rule(rng, &draft, draft.rules[place].1);
        }
        _ => {
            draft.attribute(Base::Unit, Base::Unit);
            draft.node(0);
        }
    }
    draft
}

/// Takes out a figure, a rule or a forward, if there is one.
fn undefine(rng: &mut Rng, draft: &mut Draft) {
    if draft.definitions() == 0 {
        return;
    }
    let place = rng.below(draft.definitions());
    let Some(rule) = place.checked_sub(draft.figures.len()) else {
        draft.figures.remove(place);
        return;
    };
    match rule.checked_sub(draft.rules.len()) {
        None => drop(draft.rules.remove(rule)),
        Some(forward) => drop(draft.forwards.remove(forward)),
    }
}

/// A sheet with a fault in a forward: it is cut, before a figure, not there, of no kind, repeated, or of bad length, form or type.
pub fn in_a_forward(rng: &mut Rng, mut draft: Draft) -> Vec<u8> {
    if draft.forwards.is_empty() {
        let kind = rng.below(16) as u8;
        draft.forward(rng, kind, vec![0x30]);
    }
    let place = rng.below(draft.forwards.len());
    let kind = draft.forwards[place].kind;
    match rng.below(13) {
        0 => return [&draft.open_bytes()[..], &cut_forward(rng, kind)].concat(),
        1 => {
            let mut commands = draft.commands();
            let before = draft.attributes.len() + draft.nodes.len();
            let at = before + rng.below(draft.figures.len() + 1);
            commands.insert(at, forward(kind, &[0x30]));
            return commands.concat();
        }
        2 | 3 => drop(draft.forwards.remove(place)),
        4 => draft.forwards[place].kind = rng.pick(&[16, 17, 255]),
        5 => {
            let again = draft.forwards[place].expr.clone();
            draft.forward(rng, kind, again);
        }
        6 => {
            let bad = bad_forward(rng, &draft);
            draft.forward(rng, kind, bad);
        }
        _ => draft.forwards[place].expr = bad_forward(rng, &draft),
    }
    draft.bytes()
}

/// A forward that a sheet cuts by its end, with any length.
fn cut_forward(rng: &mut Rng, kind: u8) -> Vec<u8> {
    let length: u16 = rng.pick(&[1, 2, 255, 256, 257, 65_535]);
    let [low, high] = length.to_le_bytes();
    let mut command = vec![0x46, rng.pick(&[kind, 16]), low, high];
    command.resize(4 + rng.below(length.into()), 0x30);
    command.truncate(rng.between(1, command.len()));
    command
}

/// An expression that is no good for a forward, most of the time.
fn bad_forward(rng: &mut Rng, draft: &Draft) -> Vec<u8> {
    let mut writer = Writer {
        rng,
        draft,
        usage: Use::Forward,
        below: usize::MAX,
    };
    let mut good = writer.expr(&Type::Base(Base::Node), 12);
    match writer.rng.below(10) {
        0 => Vec::new(),
        1 => unit_of_length(LONGEST + 1),
        2 => vec![writer.rng.pick(&[0x20, 0x21, 0x22, 0x30]); LONGEST],
        3 => if_else(&[0x11, 1], &good, &[0x31]),
        4 => apply(3, &[&[0x31]]),
        5 => misfit(&mut writer),
        6 => {
            let place = writer.rng.below(7);
            writer.expr(&function_types()[place], 20)
        }
        7 => {
            let at = writer.rng.below(good.len());
            good[at] = writer.rng.byte();
            good
        }
        _ => {
            let base = writer.rng.pick(&[Base::Unit, Base::Bool, Base::Int]);
            writer.expr(&Type::Base(base), 40)
        }
    }
}

/// An expression that is no good for an attribute, most of the time.
fn bad_rule(rng: &mut Rng, draft: &Draft, attribute: u8) -> Vec<u8> {
    let mut writer = Writer {
        rng,
        draft,
        usage: Use::Rule {
            parameter: draft.attributes[usize::from(attribute)].parameter,
        },
        below: usize::MAX,
    };
    match writer.rng.below(8) {
        0 => Vec::new(),
        1 => unit_of_length(LONGEST + 1),
        2 => vec![writer.rng.pick(&[0x20, 0x21, 0x22, 0x30]); LONGEST],
        3 | 4 => misfit(&mut writer),
        5 => {
            let place = writer.rng.below(7);
            writer.expr(&function_types()[place], 20)
        }
        _ => {
            let base = writer.rng.pick(&Base::ALL);
            writer.expr(&Type::Base(base), 40)
        }
    }
}

/// An expression whose parts do not fit together, most of the time.
pub fn misfit(writer: &mut Writer) -> Vec<u8> {
    let parts: Vec<Vec<u8>> = (0..3)
        .map(|_| {
            let base = writer.rng.pick(&Base::ALL);
            writer.expr(&Type::Base(base), 12)
        })
        .collect();
    let code = writer.rng.below(6) as u8;
    match writer.rng.below(4) {
        0 => if_else(&parts[0], &parts[1], &parts[2]),
        1 => apply(code, &[&parts[0], &parts[1]]),
        2 => apply(code, &[&parts[0]]),
        _ => of(&parts[0], code, &parts[1]),
    }
}

#[cfg(test)]
mod tests {
    use super::super::sheets;
    use super::*;
    use oracle::sheet::Sheet;
    use oracle::stop::Reason;
    use std::collections::{BTreeMap, BTreeSet};

    #[test]
    fn every_stop_from_2_to_8_comes_of_some_fault() {
        let mut numbers = BTreeSet::new();
        for number in 0..3_000 {
            let rng = &mut Rng::new(11, number);
            let draft = sheets::draft(rng);
            let sheets = [
                mangled(rng, &draft),
                damaged(rng, draft.bytes()),
                spoilt(rng, draft).bytes(),
            ];
            let stops = sheets.iter().filter_map(|sheet| Sheet::read(sheet).err());
            numbers.extend(stops.map(|stop| stop.reason as i64));
        }
        for number in 2..=8 {
            assert!(numbers.contains(&number), "{number} never came");
        }
    }

    #[test]
    fn every_stop_of_a_forward_comes_at_its_place() {
        let mut numbers = BTreeMap::new();
        for number in 0..3_000 {
            let rng = &mut Rng::new(13, number);
            let draft = sheets::draft(rng);
            let nodes = draft.nodes.len();
            let sheet = in_a_forward(rng, draft);
            let Err(stop) = Sheet::read(&sheet) else {
                continue;
            };
            let at_a_forward = sheet.get(stop.place) == Some(&0x46);
            // A figure behind a forward has the fault in its own place, and a pair without its forward is named by node and attribute.
            let other = match stop.reason {
                Reason::Command => sheet.get(stop.place) == Some(&0x56),
                Reason::NoDefinition => stop.place / MOST_ATTRIBUTES < nodes,
                _ => false,
            };
            *numbers
                .entry((stop.reason as i64, at_a_forward, other))
                .or_default() += 1;
        }
        for (number, at_a_forward) in [
            (2, true),
            (2, false),
            (4, true),
            (5, true),
            (6, true),
            (7, true),
            (8, false),
        ] {
            let key = (number, at_a_forward, !at_a_forward);
            let met: usize = numbers.get(&key).copied().unwrap_or(0);
            assert!(met > 50, "{key:?}: {numbers:?}");
        }
    }

    #[test]
    fn sheets_with_gaps_tell_the_orders_of_stop_8_apart() {
        let by_attribute = |pair: &(u16, u8)| (pair.1, pair.0);
        let [mut by_node, mut highest_attribute, mut highest_node] = [0; 3];
        for number in 0..2_000 {
            let rng = &mut Rng::new(12, number);
            let draft = sheets::draft(rng);
            let draft = spoilt(rng, draft);
            let Err(stop) = Sheet::read(&draft.bytes()) else {
                continue;
            };
            if stop.reason != Reason::NoDefinition {
                continue;
            }
            let gaps = draft.gaps();
            let lowest = gaps
                .iter()
                .copied()
                .min_by_key(by_attribute)
                .expect("a gap");
            let place = usize::from(lowest.0) * MOST_ATTRIBUTES + usize::from(lowest.1);
            assert_eq!(stop.place, place);
            let of_lowest = gaps.iter().copied().filter(|gap| gap.1 == lowest.1);
            by_node += usize::from(gaps.iter().min() != Some(&lowest));
            highest_attribute += usize::from(gaps.iter().any(|gap| gap.1 > lowest.1));
            highest_node += usize::from(of_lowest.max() != Some(lowest));
        }
        for told_apart in [by_node, highest_attribute, highest_node] {
            assert!(
                told_apart > 50,
                "{by_node} {highest_attribute} {highest_node}"
            );
        }
    }
}

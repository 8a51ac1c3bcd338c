//! Sheets by family.

use oracle::caching::MOST_OPEN;
use oracle::expr::{Use, LONGEST};
use oracle::sheet::{LONGEST_SHEET, MOST_ATTRIBUTES, MOST_NODES};
use oracle::values::{Base, Type, Value};

use super::circles;
use super::collisions;
use super::draft::{base_value, int, small_int, Draft};
use super::forwards;
use super::rng::Rng;
use super::sums;
use super::writer::{apply, literal, number, unit_of_length, wrapped, Writer};
use crate::write::{if_else, of};

/// A sheet of some family. Nearly all are accepted. One in three has forwards.
pub fn draft(rng: &mut Rng) -> Draft {
    let mut draft = match rng.below(60) {
        0..=11 => random_sheet(rng, false),
        12..=18 => random_sheet(rng, true),
        19..=25 => chain(rng),
        26..=30 => countdown(rng),
        31..=37 => circles::draft(rng),
        38..=41 => hostile(rng),
        42 | 43 => return collisions::draft(rng),
        44 | 45 => tree(rng),
        46 => return large(rng),
        47 | 48 => sums::draft(rng),
        49 => Draft::default(),
        _ => return forwards::draft(rng),
    };
    if rng.once_in(5) {
        forwards::put_onto(rng, &mut draft);
    }
    draft
}

/// Random attributes, few or as many as there can be, nodes, figures and rules. Without circles, a rule names only attributes declared
/// before its own.
fn random_sheet(rng: &mut Rng, circles: bool) -> Draft {
    let mut draft = Draft::default();
    let attributes = match rng.below(6) {
        0 => MOST_ATTRIBUTES,
        _ => rng.between(1, 9),
    };
    for _ in 0..attributes {
        let result = rng.pick(&Base::ALL);
        let parameter = rng.pick(&[
            Base::Unit,
            Base::Unit,
            Base::Unit,
            Base::Bool,
            Base::Int,
            Base::Node,
        ]);
        draft.attribute(result, parameter);
    }
    let kinds = rng.between(1, 3) as u8;
    let least = usize::from(!rng.once_in(12));
    for _ in 0..rng.between(least, 10) {
        let kind = 5 * rng.below(usize::from(kinds)) as u8;
        draft.node(kind);
    }
    for kind in 0..kinds {
        for attribute in 0..draft.attributes.len() {
            if rng.once_in(3) {
                continue;
            }
            let declared = draft.attributes[attribute];
            let room = rng.pick(&[30, 30, 30, 100, 100, LONGEST]);
            let mut writer = Writer {
                rng,
                draft: &draft,
                usage: Use::Rule {
                    parameter: declared.parameter,
                },
                below: if circles { usize::MAX } else { attribute },
            };
            let expr = writer.expr(&Type::Base(declared.result), room);
            draft.rules.push((5 * kind, attribute as u8, expr));
        }
    }
    draft.complete(rng, 8);
    draft
}

/// A draft in which so many further attributes have the first numbers, the last, or any between. What stands before them are Units of nodes of kinds 0
/// and 1.
pub fn begun(rng: &mut Rng, attributes: usize) -> Draft {
    let mut draft = Draft::default();
    let room = MOST_ATTRIBUTES - attributes;
    let before = match rng.below(4) {
        0 => room,
        1 => rng.below(room + 1),
        _ => 0,
    };
    for _ in 0..before {
        let idle = draft.attribute(Base::Unit, Base::Unit);
        for kind in [0, 1] {
            draft.rules.push((kind, idle, literal(Value::Unit)));
        }
    }
    draft
}

/// Sheet L's attributes, and one with a parameter, over a chain of nodes that can be longer than 64, whole or with breaks.
fn chain(rng: &mut Rng) -> Draft {
    let mut draft = begun(rng, 4);
    let up = draft.attribute(Base::Node, Base::Unit);
    let own = draft.attribute(Base::Int, Base::Unit);
    let dial = draft.attribute(Base::Int, Base::Unit);
    let total = draft.attribute(Base::Int, Base::Int);
    let length = match rng.below(12) {
        0..=3 => rng.between(2, 8),
        4..=7 => rng.between(60, 68),
        8..=10 => rng.between(8, 150),
        _ => MOST_NODES,
    };
    let whole = rng.once_in(2);
    for place in 0..length {
        let node = draft.node(u8::from(place > 0));
        let above = match node.checked_sub(1) {
            Some(_) if !whole && rng.once_in(50) => Some(rng.below(length) as u16),
            above => above,
        };
        let value = match place {
            0 => 700,
            _ if !whole && rng.once_in(40) => int(rng),
            _ => 0,
        };
        draft.figures.push((node, up, Value::Node(above)));
        draft.figures.push((node, own, Value::Int(value)));
    }
    let own_here = of(&[0x30], own, &[0x10]);
    let above = of(&[0x30], up, &[0x10]);
    let unset = apply(1, &[&own_here, &number(0)]);
    let inherited = of(&above, dial, &[0x10]);
    let sum = apply(rng.pick(&[4, 5]), &[&[0x31], &own_here]);
    let further = of(&above, total, &sum);
    draft.rules.push((0, dial, own_here.clone()));
    draft
        .rules
        .push((1, dial, if_else(&unset, &inherited, &own_here)));
    draft.rules.push((0, total, vec![0x31]));
    draft
        .rules
        .push((1, total, apply(4, &[&number(1), &further])));
    if length > MOST_OPEN {
        // The first of 64 forms that `dial` opens, and what is due inside the last: with that kept, the first is not too deep.
        let outer = rng.between(MOST_OPEN, length - 1) as u16;
        let inner = outer + 1 - MOST_OPEN as u16;
        for (node, attribute) in [(outer, dial), (inner, own), (inner, up), (inner - 1, dial)] {
            let question = of(&literal(Value::Node(Some(node))), attribute, &[0x10]);
            draft.questions.push(question);
        }
    }
    draft
}

/// Attributes that call themselves with smaller parameters, once or twice.
fn countdown(rng: &mut Rng) -> Draft {
    let mut draft = begun(rng, 2);
    let count = draft.attribute(Base::Int, Base::Int);
    let odd = draft.attribute(Base::Bool, Base::Int);
    for _ in 0..rng.between(1, 3) {
        draft.node(0);
    }
    let less = |by| apply(5, &[&[0x31], &number(by)]);
    let again = |by| of(&[0x30], count, &less(by));
    let done = apply(0, &[&[0x31], &number(0)]);
    let further = match rng.below(4) {
        0 => apply(4, &[&number(1), &again(1)]),
        1 => apply(4, &[&again(1), &again(1)]),
        2 => apply(4, &[&again(1), &again(2)]),
        _ => again(1),
    };
    let rule = if_else(&done, &number(1), &further);
    draft.rules.push((0, count, rule));
    let other = apply(3, &[&of(&[0x30], odd, &less(1))]);
    draft
        .rules
        .push((0, odd, if_else(&done, &[0x11, 0], &other)));
    // Of two questions 64 apart, one has what the other keeps due inside 64 forms.
    let least = rng.pick(&[0, 0, 1, 2, 30]);
    for above in [0, 63, 64, 65] {
        for attribute in [count, odd] {
            let question = of(&[0x13, 0, 0], attribute, &number(least + above));
            draft.questions.push(question);
        }
    }
    draft
}

/// The longest rules, the deepest nesting and the widest fan-out, over a chain of nodes.
fn hostile(rng: &mut Rng) -> Draft {
    let mut draft = begun(rng, 5);
    let next = draft.attribute(Base::Node, Base::Unit);
    let deep = draft.attribute(Base::Bool, Base::Bool);
    let walk = draft.attribute(Base::Node, Base::Node);
    let wide = draft.attribute(Base::Int, Base::Int);
    let idle = draft.attribute(Base::Unit, Base::Bool);
    let nodes: u16 = rng.pick(&[2, 5, 62, 63, 64, 65, 66, 100]);
    for place in 0..nodes {
        let last = place + 1 == nodes;
        let node = draft.node(u8::from(last));
        let following = if last { place } else { place + 1 };
        draft
            .figures
            .push((node, next, Value::Node(Some(following))));
    }
    let following = of(&[0x30], next, &[0x10]);
    let onward = |attribute| of(&following, attribute, &[0x31]);
    let nested = match rng.below(3) {
        0 => wrapped(onward(deep), |inner| apply(3, &[inner])),
        1 => wrapped(onward(deep), |inner| if_else(inner, &[0x31], &[0x31])),
        _ => wrapped(onward(deep), |inner| if_else(&[0x31], &[0x31], inner)),
    };
    let walked = match rng.below(3) {
        0 => wrapped(onward(walk), |inner| of(inner, next, &[0x10])),
        1 => wrapped(vec![0x31], |inner| of(&following, walk, inner)),
        _ => wrapped(onward(walk), |inner| of(inner, walk, &[0x31])),
    };
    let part = match rng.below(4) {
        0 => onward(wide),
        1 => of(&following, wide, &apply(5, &[&[0x31], &number(1)])),
        2 => number(int(rng)),
        _ => vec![0x31],
    };
    // The sums soon leave Int, the differences seldom.
    let code = rng.pick(&[4, 5]);
    let fanned = wrapped(onward(wide), |inner| apply(code, &[&part, inner]));
    let rules = [
        (deep, nested, 0x31),
        (walk, walked, 0x31),
        (wide, fanned, 0x31),
        (idle, unit_of_length(LONGEST), 0x10),
    ];
    for (attribute, rule, leaf) in rules {
        // Seldom, the last node's rule leads back to itself.
        let end = if rng.once_in(12) {
            rule.clone()
        } else {
            vec![leaf]
        };
        draft.rules.push((0, attribute, rule));
        draft.rules.push((1, attribute, end));
    }
    draft
}

/// The example of document 001, figure 3, over a binary tree.
fn tree(rng: &mut Rng) -> Draft {
    let mut draft = begun(rng, 5);
    let [left, right] = [0; 2].map(|_| draft.attribute(Base::Node, Base::Unit));
    let value = draft.attribute(Base::Int, Base::Unit);
    let least = draft.attribute(Base::Node, Base::Unit);
    let sum = draft.attribute(Base::Int, Base::Int);
    let nodes = rng.pick(&[3, 31, 255, 600, MOST_NODES - 1]);
    // Sums of any Ints seldom fit.
    let small = !rng.once_in(4);
    for place in 0..nodes {
        let inner = 2 * place + 2 < nodes;
        let node = draft.node(u8::from(inner));
        if inner {
            for (side, below) in [(left, 2 * node + 1), (right, 2 * node + 2)] {
                draft.figures.push((node, side, Value::Node(Some(below))));
            }
        }
        let figure = if small { small_int(rng) } else { int(rng) };
        draft.figures.push((node, value, Value::Int(figure)));
    }
    for side in [left, right] {
        draft.rules.push((0, side, literal(Value::Node(None))));
    }
    let side = |side| of(&[0x30], side, &[0x10]);
    let least_of = |from| of(&side(from), least, &[0x10]);
    let value_of = |from| of(&least_of(from), value, &[0x10]);
    let smaller = apply(0, &[&value_of(left), &value_of(right)]);
    let rule = if_else(&smaller, &least_of(left), &least_of(right));
    draft.rules.push((0, least, vec![0x30]));
    draft.rules.push((1, least, rule));
    let sum_of = |from| of(&side(from), sum, &[0x31]);
    let own = apply(4, &[&[0x31], &of(&[0x30], value, &[0x10])]);
    draft.rules.push((0, sum, own));
    draft
        .rules
        .push((1, sum, apply(4, &[&sum_of(left), &sum_of(right)])));
    // Of a large tree they fill every store.
    let root = literal(Value::Node(Some(0)));
    let parameter = number(small_int(rng));
    draft.questions = vec![of(&root, least, &[0x10]), of(&root, sum, &parameter)];
    draft
}

/// A sheet at or near its limits of attributes, nodes and bytes, or one byte beyond.
fn large(rng: &mut Rng) -> Draft {
    let mut draft = Draft::default();
    let idle = draft.attribute(Base::Unit, Base::Bool);
    for _ in 1..MOST_ATTRIBUTES - rng.below(2) {
        let (result, parameter) = (rng.pick(&Base::ALL), rng.pick(&Base::ALL));
        draft.attribute(result, parameter);
    }
    // Many short rules, or as many long ones as there is room for.
    let (kinds, longest) = rng.pick(&[(16, 60), (5, LONGEST)]);
    for _ in 0..MOST_NODES - rng.below(2) {
        let kind = rng.below(kinds) as u8;
        draft.node(kind);
    }
    for kind in 0..kinds as u8 {
        for attribute in 1..draft.attributes.len() {
            let declared = draft.attributes[attribute];
            let room = rng.between(longest / 2, longest);
            let mut writer = Writer {
                rng,
                draft: &draft,
                usage: Use::Rule {
                    parameter: declared.parameter,
                },
                below: attribute,
            };
            let expr = writer.expr(&Type::Base(declared.result), room);
            draft.rules.push((kind, attribute as u8, expr));
        }
        draft.rules.push((kind, idle, unit_of_length(LONGEST)));
    }
    let length = rng.pick(&[
        LONGEST_SHEET - 1,
        LONGEST_SHEET,
        LONGEST_SHEET,
        LONGEST_SHEET + 1,
    ]);
    fill(rng, &mut draft, length);
    draft
}

/// Adds figures up to a length in bytes, and shortens the last rule, a Unit one, to meet it.
fn fill(rng: &mut Rng, draft: &mut Draft, length: usize) {
    const FIGURE: usize = 8;
    const SPARE: usize = 100;
    let mut written = draft.bytes().len();
    let mut pair = rng.below(99);
    while written + FIGURE <= length + SPARE && pair / 32 < draft.nodes.len() {
        let (node, attribute) = (pair / 32, pair % 32);
        pair += 1 + rng.below(3);
        if let Some(declared) = draft.attributes.get(attribute) {
            let value = base_value(rng, declared.result, draft.nodes.len());
            draft.figures.push((node as u16, attribute as u8, value));
            written += FIGURE;
        }
    }
    if let Some((_, _, last)) = draft.rules.last_mut() {
        *last = unit_of_length(last.len() + length - written);
    }
}

#[cfg(test)]
mod tests {
    use super::*;
    use oracle::ask::{ask_accepted, MOST_STEPS};
    use oracle::sheet::Sheet;
    use oracle::stop::Reason;

    /// The number that the last of some questions brings, put one after the other to one store.
    fn last_number(draft: &Draft, questions: &[usize]) -> i64 {
        let read = Sheet::read(&draft.bytes()).expect("an accepted sheet");
        let mut store = vec![0; 12 * 1_024];
        let (mut kept, mut number) = (0, 0);
        for &place in questions {
            let question = &draft.questions[place];
            let answer = ask_accepted(&read, &mut store, kept, question, MOST_STEPS);
            (kept, number) = (answer.kept as u64, answer.number);
        }
        number
    }

    /// Of 240 sheets of a family, those of which the last question is stop 16 by itself and has a value after the others.
    fn spared(family: fn(&mut Rng) -> Draft, questions: &[usize]) -> usize {
        let alone = &questions[questions.len() - 1..];
        (0..240)
            .map(|number| family(&mut Rng::new(3, number)))
            .filter(|draft| !draft.questions.is_empty() && last_number(draft, alone) == 16)
            .filter(|draft| last_number(draft, questions) == 0)
            .count()
    }

    #[test]
    fn deep_chains_come_with_questions_64_forms_apart() {
        assert!(spared(chain, &[3, 2, 1, 0]) >= 40);
        assert!(spared(countdown, &[0, 4]) >= 40);
    }

    #[test]
    fn every_family_is_accepted() {
        for number in 0..60 {
            let rng = &mut Rng::new(2, number);
            for draft in [
                random_sheet(rng, false),
                random_sheet(rng, true),
                chain(rng),
                countdown(rng),
                circles::draft(rng),
                hostile(rng),
                collisions::draft(rng),
                tree(rng),
                sums::draft(rng),
                forwards::draft(rng),
            ] {
                let mut with_forwards = draft.clone();
                forwards::put_onto(rng, &mut with_forwards);
                for draft in [draft, with_forwards] {
                    let read = Sheet::read(&draft.bytes());
                    assert!(read.is_ok(), "{:?}", read.err());
                }
            }
        }
    }

    #[test]
    fn one_sheet_in_three_has_forwards() {
        let drafts = (0..3_000).map(|number| draft(&mut Rng::new(2, number)));
        let with = drafts.filter(|draft| !draft.forwards.is_empty()).count();
        assert!((900..1_200).contains(&with), "{with} of 3,000");
    }

    #[test]
    fn a_large_sheet_meets_its_length() {
        for number in 0..12 {
            let bytes = large(&mut Rng::new(2, number)).bytes();
            match Sheet::read(&bytes) {
                Ok(_) => assert!([65_535, 65_536].contains(&bytes.len())),
                Err(stop) => {
                    assert_eq!(stop.reason, Reason::SheetLength);
                    assert_eq!(bytes.len(), 65_537);
                }
            }
        }
    }
}

//! Equations that need their own value, and some that nearly do: sheets in which a way through attributes, nodes and parameters leads back to where it
//! was, with questions for it.

use oracle::caching::MOST_OPEN;
use oracle::values::{Base, Value};

use super::draft::{base_value, Draft};
use super::rng::Rng;
use super::sheets::begun;
use super::writer::{apply, literal, number};
use crate::write::{if_else, of, ADD, LE, NOT, SUBTRACT};

/// The code of equal on Node.
const SAME_NODE: u8 = 2;

/// Circles with a question for each of some ways into them, or attributes that lead back to themselves as chance has it.
pub fn draft(rng: &mut Rng) -> Draft {
    match rng.below(3) {
        0 => led_back(rng),
        _ => turns(rng),
    }
}

/// Attributes that lead back to themselves with the same parameter, some of them only on a condition.
fn led_back(rng: &mut Rng) -> Draft {
    let result = rng.pick(&Base::ALL);
    let parameter = rng.pick(&Base::ALL);
    let length = rng.between(1, 5);
    let mut draft = begun(rng, length);
    let attributes: Vec<u8> = (0..length)
        .map(|_| draft.attribute(result, parameter))
        .collect();
    let nodes = rng.between(1, 4);
    for kind in 0..nodes as u8 {
        draft.node(if rng.once_in(2) { 0 } else { kind });
    }
    for kind in 0..nodes as u8 {
        for (place, attribute) in attributes.iter().enumerate() {
            let node = if rng.once_in(3) {
                literal(base_value(rng, Base::Node, nodes))
            } else {
                vec![0x30]
            };
            let around = of(&node, attributes[(place + 1) % length], &[0x31]);
            let rule = if rng.once_in(4) {
                let end = literal(base_value(rng, result, nodes));
                if_else(&apply(SAME_NODE, &[&[0x30], &node]), &around, &end)
            } else {
                around
            };
            draft.rules.push((kind, *attribute, rule));
        }
    }
    draft.complete(rng, 12);
    draft
}

/// What the parameter is one turn later.
enum Onward {
    /// The same.
    Same(Base),
    /// The other Bool: the same again after two turns.
    Other,
    /// One less, and the top from 0 down: from the top on, the same again after as many turns as there are Ints from 0 to it.
    Falling { top: i32 },
    /// One more: never the same.
    Rising,
    /// The node that follows.
    Following,
}

impl Onward {
    fn any(rng: &mut Rng) -> Onward {
        match rng.below(10) {
            0..=2 => Onward::Same(rng.pick(&Base::ALL)),
            3 => Onward::Other,
            4..=6 => Onward::Falling {
                top: rng.pick(&[0, 1, 2, 9, 61, 62, 63, 64, 200]),
            },
            7 | 8 => Onward::Rising,
            _ => Onward::Following,
        }
    }

    fn base(&self) -> Base {
        match *self {
            Onward::Same(base) => base,
            Onward::Other => Base::Bool,
            Onward::Falling { .. } | Onward::Rising => Base::Int,
            Onward::Following => Base::Node,
        }
    }

    /// The parameter of the next turn, by the parameter of this one. The attribute `next` is the node that follows.
    fn parameter(&self, next: u8) -> Vec<u8> {
        let parameter = &[0x31][..];
        match *self {
            Onward::Same(_) => parameter.to_vec(),
            Onward::Other => apply(NOT, &[parameter]),
            Onward::Falling { top } => if_else(
                &apply(LE, &[parameter, &number(0)]),
                &number(top),
                &apply(SUBTRACT, &[parameter, &number(1)]),
            ),
            Onward::Rising => apply(ADD, &[parameter, &number(1)]),
            Onward::Following => of(parameter, next, &[0x10]),
        }
    }

    /// The parameter of a question. Where it falls, some 64 forms are open when the top is due again, or fewer.
    fn start(&self, rng: &mut Rng, nodes: u16) -> Value {
        let most = MOST_OPEN as i32;
        match *self {
            Onward::Falling { top } => Value::Int(match rng.below(4) {
                0 => rng.below(top as usize + 1) as i32,
                _ => top.max(most + rng.pick(&[-3, -2, -1, -1, 0])),
            }),
            Onward::Rising => Value::Int(rng.pick(&[0, -7, i32::MAX - 9, i32::MAX - most])),
            _ => base_value(rng, self.base(), nodes.into()),
        }
    }
}

/// Nodes that follow each other, the last one followed by one of them, and attributes that turn to each other, of the same node or the next, with
/// the same parameter or another.
fn turns(rng: &mut Rng) -> Draft {
    let result = rng.pick(&[Base::Bool, Base::Int, Base::Node]);
    let onward = Onward::any(rng);
    let length = rng.pick(&[1, 1, 2, 3]);
    let mut draft = begun(rng, 3 + length);
    let next = draft.attribute(Base::Node, Base::Unit);
    let own = draft.attribute(result, Base::Unit);
    let echo = draft.attribute(result, result);
    let turns: Vec<u8> = (0..length)
        .map(|_| draft.attribute(result, onward.base()))
        .collect();
    let nodes: u16 = rng.pick(&[1, 1, 2, 3, 5, 62, 63, 64, 65, 100]);
    let back = rng.below(nodes.into()) as u16;
    for place in 0..nodes {
        let node = draft.node(rng.below(2) as u8);
        let following = if place + 1 < nodes { place + 1 } else { back };
        let following = Value::Node(Some(following));
        draft.figures.push((node, next, following));
    }
    // Half of the sheets do nothing but turn, so that nothing is finished between one form and the next. In a third each turn goes to the next node,
    // and a figure stands in the way.
    let bare = rng.once_in(2);
    let barred = rng.once_in(3);
    if barred {
        let value = base_value(rng, result, nodes.into());
        let node = rng.below(nodes.into()) as u16;
        draft.figures.push((node, turns[0], value));
    }
    for kind in [0, 1] {
        let value = base_value(rng, result, nodes.into());
        draft.rules.push((kind, own, literal(value)));
        draft.rules.push((kind, echo, vec![0x31]));
        for (place, attribute) in turns.iter().enumerate() {
            let here = match onward {
                _ if barred => false,
                Onward::Falling { .. } if bare => true,
                _ => rng.once_in(if bare { 4 } else { 2 }),
            };
            let node = match here {
                true => vec![0x30],
                false => of(&[0x30], next, &[0x10]),
            };
            let again = of(&node, turns[(place + 1) % length], &onward.parameter(next));
            let turn = Turn {
                again,
                result,
                own,
                echo,
                next,
            };
            let rule = if bare { turn.again } else { turn.placed(rng) };
            draft.rules.push((kind, *attribute, rule));
        }
    }
    let starts = [0; 2].map(|_| literal(onward.start(rng, nodes)));
    for node in [0, nodes / 2, nodes - 1] {
        let node = literal(Value::Node(Some(node)));
        for start in &starts {
            draft.questions.push(of(&node, turns[0], start));
        }
        draft.questions.push(of(&node, next, &[0x10]));
    }
    draft
}

/// The next turn, an attribute of a result type, and what can stand around it.
struct Turn {
    again: Vec<u8>,
    result: Base,
    /// An attribute of the result type that ends at once.
    own: u8,
    /// An attribute that is its parameter.
    echo: u8,
    next: u8,
}

impl Turn {
    /// The turn as a parameter, in a condition, in a branch that may not be taken, as the node of an attribute or as an argument.
    fn placed(&self, rng: &mut Rng) -> Vec<u8> {
        let again = &self.again[..];
        let own = &of(&[0x30], self.own, &[0x10])[..];
        let code = rng.pick(&[ADD, SUBTRACT]);
        match (rng.below(6), self.result) {
            (0, _) => again.to_vec(),
            (1, _) => of(&[0x30], self.echo, again),
            (2, _) => if_else(&self.truth(again), own, own),
            (3, _) => if_else(&self.truth(own), again, own),
            (4, Base::Node) => of(again, self.next, &[0x10]),
            (_, Base::Node) => of(again, self.own, &[0x10]),
            (4, Base::Int) => apply(code, &[own, again]),
            (_, Base::Int) => apply(code, &[again, own]),
            (4, _) => apply(NOT, &[again]),
            _ => if_else(again, own, again),
        }
    }

    /// A Bool by an expression of the result type.
    fn truth(&self, expr: &[u8]) -> Vec<u8> {
        match self.result {
            Base::Int => apply(LE, &[expr, &number(3)]),
            Base::Node => apply(SAME_NODE, &[expr, &[0x30]]),
            _ => expr.to_vec(),
        }
    }
}

#[cfg(test)]
mod tests {
    use super::*;
    use oracle::ask::{ask_accepted, read_question, Answer, MOST_STEPS};
    use oracle::plain;
    use oracle::sheet::Sheet;
    use std::collections::BTreeSet;

    /// The sheets of many drafts with the questions that they are made for.
    fn drafts() -> impl Iterator<Item = (Sheet, Vec<Vec<u8>>)> {
        (0..600).map(|number| {
            let draft = draft(&mut Rng::new(5, number));
            let sheet = Sheet::read(&draft.bytes()).expect("an accepted sheet");
            (sheet, draft.questions)
        })
    }

    /// The answers to some questions, put one after the other to a store that is empty at first.
    fn answers<'q>(sheet: &Sheet, questions: impl IntoIterator<Item = &'q Vec<u8>>) -> Vec<Answer> {
        let mut store = vec![0; 12 * 1_024];
        let mut kept = 0;
        let put = |question: &Vec<u8>| {
            let answer = ask_accepted(sheet, &mut store, kept, question, MOST_STEPS);
            kept = answer.kept as u64;
            answer
        };
        questions.into_iter().map(put).collect()
    }

    #[test]
    fn circles_come_at_once_and_late_and_beside_every_other_ending() {
        let mut alone = Vec::new();
        for (sheet, questions) in drafts() {
            for question in &questions {
                let answer = answers(&sheet, [question])[0];
                let question = read_question(question, &sheet).expect("an accepted question");
                let watched = plain::watch(&sheet, &question, 20_000);
                alone.push((answer, watched.circle.is_some()));
            }
        }
        // Of a thousand.
        let with = |wanted: &dyn Fn(&Answer, bool) -> bool| {
            let found = alone
                .iter()
                .filter(|(answer, circle)| wanted(answer, *circle));
            1_000 * found.count() / alone.len()
        };
        let numbers: BTreeSet<i64> = alone.iter().map(|(answer, _)| answer.number).collect();
        assert!(numbers.into_iter().eq([0, 14, 16, 17, 20]));
        assert!((150..400).contains(&with(&|answer, _| answer.number == 20)));
        assert!(with(&|answer, _| (answer.number, answer.steps) == (20, 1)) > 5);
        assert!(with(&|answer, _| answer.number == 20 && answer.kept > 1) > 30);
        // Where nothing is kept, nothing is finished, and every form is open.
        let open = |answer: &Answer| match answer.kept {
            0 => answer.tally[..32].iter().sum(),
            _ => 0,
        };
        for forms in [1, 2, 10, 63, 64] {
            let found = with(&|answer, _| answer.number == 20 && open(answer) == forms);
            assert!(found > 0, "inside {forms}");
        }
        // Too deep, on a circle and on none.
        for on in [true, false] {
            let found = with(&|answer, circle| answer.number == 16 && circle == on);
            assert!(found > 40, "{on}: {found}");
        }
    }

    #[test]
    fn what_is_kept_shortens_the_way_that_a_figure_ends() {
        let shorter = |(sheet, questions): &(Sheet, Vec<Vec<u8>>)| {
            let [first, _, _, second, ..] = &questions[..] else {
                return false;
            };
            let alone = answers(sheet, [first])[0];
            let [half, after] = answers(sheet, [second, first])[..] else {
                unreachable!("two answers");
            };
            let spared = alone.number == 16 || after.steps < alone.steps;
            [half.number, after.number] == [0, 0] && spared
        };
        assert!(drafts().filter(shorter).count() > 8);
    }
}

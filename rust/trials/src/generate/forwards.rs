//! Forwards: sheets in which attributes are those of other nodes, over ways that meet, break off on null, lead back or go deep, with questions for them;
//! and forwards put onto sheets of other families.

use oracle::caching::MOST_OPEN;
use oracle::expr::Use;
use oracle::values::{Base, Type, Value};

use super::draft::{base_value, int, small_int, Draft};
use super::rng::Rng;
use super::sheets::begun;
use super::writer::{apply, literal, number, Writer};
use crate::write::{if_else, of, ADD, EQUAL, LE};

/// The kinds of nodes that forward. Nodes of kind 0 have rules for everything.
const FORWARDING: [u8; 4] = [2, 3, 9, 15];
/// The kinds that no node has.
const OF_NO_NODE: [u8; 2] = [7, 14];

/// Where each of some nodes leads.
enum Way {
    /// To the node before it, and the first to none: chains.
    Down,
    /// To the first, and the first to none: they meet there.
    Together,
    /// To the node after it, and the last to one of them: circles, with a way into them.
    Around { back: usize },
    /// To any node, or none.
    Any,
}

impl Way {
    fn any(rng: &mut Rng, nodes: usize) -> Way {
        match rng.below(8) {
            0..=3 => Way::Down,
            4 => Way::Together,
            5 | 6 => Way::Around {
                back: rng.below(nodes),
            },
            _ => Way::Any,
        }
    }

    fn from(&self, rng: &mut Rng, node: usize, nodes: usize) -> Value {
        let to = match *self {
            Way::Down => node.checked_sub(1),
            Way::Together => (node > 0).then_some(0),
            Way::Around { .. } if node + 1 < nodes => Some(node + 1),
            Way::Around { back } => Some(back),
            Way::Any => return base_value(rng, Base::Node, nodes),
        };
        Value::Node(to.map(|to| to as u16))
    }
}

/// The attributes of a sheet of forwards.
struct Attributes {
    /// A node, where a forward leads to.
    up: u8,
    /// An Int, by which a forward chooses.
    own: u8,
    /// For each type, an attribute with a parameter and a value of it.
    handed: [u8; 4],
}

impl Attributes {
    /// An expression for a forward.
    fn forward(&self, rng: &mut Rng, nodes: usize) -> Vec<u8> {
        let up = of(&[0x30], self.up, &[0x10]);
        let own = of(&[0x30], self.own, &[0x10]);
        let any = literal(base_value(rng, Base::Node, nodes));
        match rng.below(16) {
            0..=7 => up,
            8 => of(&up, self.up, &[0x10]),
            9 => if_else(&apply(LE, &[&own, &number(4)]), &up, &any),
            10 => if_else(&apply(EQUAL, &[&own, &number(0)]), &any, &up),
            11 => vec![0x30],
            12 => literal(Value::Node(None)),
            // f's own attribute is forwarded, with a parameter of its own.
            13 => of(&[0x30], self.handed[usize::from(Base::Node.code())], &any),
            _ => any,
        }
    }

    /// An expression for the attribute that is handed a parameter of a type, which the value shows.
    fn shows(&self, rng: &mut Rng, base: Base, nodes: usize) -> Vec<u8> {
        let own = of(&[0x30], self.own, &[0x10]);
        let any = literal(base_value(rng, base, nodes));
        match (base, rng.below(4)) {
            (_, 0) => any,
            (Base::Bool, 1) => if_else(&[0x31], &[0x11, 0], &[0x11, 1]),
            (Base::Int, 1) => apply(ADD, &[&[0x31], &own]),
            (Base::Node, 1) => of(&[0x31], self.up, &[0x10]),
            _ => vec![0x31],
        }
    }
}

/// Nodes that forward, of kinds with nothing else or with rules and figures besides, and a few that do not, with questions for what is forwarded.
pub fn draft(rng: &mut Rng) -> Draft {
    let mut draft = begun(rng, 6);
    let at = Attributes {
        up: draft.attribute(Base::Node, Base::Unit),
        own: draft.attribute(Base::Int, Base::Unit),
        handed: Base::ALL.map(|base| draft.attribute(base, base)),
    };
    let nodes: usize = rng.pick(&[1, 2, 2, 3, 3, 5, 8, 62, 63, 64, 65, 66, 100]);
    let kinds = &FORWARDING[..rng.between(1, FORWARDING.len())];
    let ends = rng.pick(&[0, 1, 1, 1, 2]);
    for node in 0..nodes {
        let kind = if node < ends { 0 } else { rng.pick(kinds) };
        draft.node(kind);
    }
    // Half of the sheets have nothing but forwards for the kinds that forward, so that a way is as long as it can be.
    let bare = rng.once_in(2);
    for (attribute, base) in at.handed.into_iter().zip(Base::ALL) {
        draft.rules.push((0, attribute, at.shows(rng, base, nodes)));
        for kind in kinds {
            if !bare && rng.once_in(4) {
                let expr = at.shows(rng, base, nodes);
                draft.rules.push((*kind, attribute, expr));
            }
        }
    }
    let value = if bare { 0 } else { small_int(rng) };
    draft.rules.push((0, at.own, number(value)));
    for kind in kinds {
        // Long ways lead from node to node; short ones can do anything.
        let expr = match nodes {
            0..10 => at.forward(rng, nodes),
            _ => of(&[0x30], at.up, &[0x10]),
        };
        draft.forward(rng, *kind, expr);
    }
    for kind in OF_NO_NODE {
        if rng.once_in(3) {
            let expr = at.forward(rng, nodes);
            draft.forward(rng, kind, expr);
        }
    }
    let way = Way::any(rng, nodes);
    for node in 0..nodes {
        // Without a figure `up` itself is forwarded.
        if !rng.once_in(if bare { 200 } else { 12 }) {
            let to = way.from(rng, node, nodes);
            draft.figures.push((node as u16, at.up, to));
        }
        if rng.once_in(3) {
            let own = Value::Int(small_int(rng));
            draft.figures.push((node as u16, at.own, own));
        }
    }
    draft.complete(rng, if bare { 1_000 } else { 8 });
    questions(rng, &mut draft, &at);
    draft
}

/// The attributes of a node, and of the one that is 64 before it where there is one: with what that keeps, the way is not too deep.
fn questions(rng: &mut Rng, draft: &mut Draft, at: &Attributes) {
    let nodes = draft.nodes.len();
    let last = nodes - 1 - rng.below(nodes.min(3));
    let parameters = Base::ALL.map(|base| match base {
        Base::Int => number(int(rng)),
        base => literal(base_value(rng, base, nodes)),
    });
    let before = last.saturating_sub(MOST_OPEN - rng.below(2));
    for node in [last, before, nodes / 2] {
        let node = literal(Value::Node(Some(node as u16)));
        for attribute in [at.up, at.own] {
            draft.questions.push(of(&node, attribute, &[0x10]));
        }
        for (attribute, parameter) in at.handed.iter().zip(&parameters) {
            draft.questions.push(of(&node, *attribute, parameter));
        }
    }
}

/// Puts forwards onto a sheet of another family, and takes some of what they then stand for out of it.
pub fn put_onto(rng: &mut Rng, draft: &mut Draft) {
    let mut kinds: Vec<u8> = draft.nodes.clone();
    kinds.extend(OF_NO_NODE);
    kinds.sort_unstable();
    kinds.dedup();
    for kind in kinds {
        if !draft.has_forward(kind) && rng.once_in(2) {
            let expr = any_expression(rng, draft);
            draft.forward(rng, kind, expr);
            let [rules, figures] = [rng.pick(&[1, 2, 4]), rng.pick(&[2, 8, 64])];
            draft
                .rules
                .retain(|rule| rule.0 != kind || !rng.once_in(rules));
            let nodes = &draft.nodes;
            let of_kind = |node: u16| nodes[usize::from(node)] == kind;
            draft
                .figures
                .retain(|figure| !of_kind(figure.0) || !rng.once_in(figures));
        }
    }
}

/// An expression for a forward: any, or often an attribute of this node that is a node.
fn any_expression(rng: &mut Rng, draft: &Draft) -> Vec<u8> {
    let mut leading: Vec<u8> = Vec::new();
    for (number, declared) in (0..).zip(&draft.attributes) {
        if (declared.result, declared.parameter) == (Base::Node, Base::Unit) {
            leading.push(number);
        }
    }
    if !leading.is_empty() && rng.once_in(2) {
        return of(&[0x30], rng.pick(&leading), &[0x10]);
    }
    let room = rng.pick(&[3, 3, 12, 40, 253, 256]);
    let mut writer = Writer {
        rng,
        draft,
        usage: Use::Forward,
        below: usize::MAX,
    };
    writer.expr(&Type::Base(Base::Node), room)
}

#[cfg(test)]
mod tests {
    use super::*;
    use oracle::ask::{ask_accepted, Answer, MOST_STEPS};
    use oracle::sheet::{Definition, Sheet};
    use std::collections::BTreeSet;

    /// A question of a draft with its attribute, and the answer to it with an empty store.
    struct Asked {
        question: Vec<u8>,
        answer: Answer,
    }

    impl Asked {
        fn attribute(&self) -> usize {
            self.question[1].into()
        }

        /// How often the attribute itself was due: of a node that forwards, once for each hop and once at the end.
        fn times(&self) -> u64 {
            self.answer.tally[self.attribute()]
        }
    }

    /// The sheets of many drafts, with their questions.
    fn drafts() -> impl Iterator<Item = (Draft, Sheet, Vec<Asked>)> {
        (0..600).map(|number| {
            let draft = draft(&mut Rng::new(5, number));
            let sheet = Sheet::read(&draft.bytes()).expect("an accepted sheet");
            let ask = |question: &Vec<u8>| Asked {
                question: question.clone(),
                answer: ask_accepted(&sheet, &mut vec![0; 12 * 1_024], 0, question, MOST_STEPS),
            };
            let asked = draft.questions.iter().map(ask).collect();
            (draft, sheet, asked)
        })
    }

    #[test]
    fn what_is_forwarded_ends_in_every_way() {
        let asked: Vec<Asked> = drafts().flat_map(|(_, _, asked)| asked).collect();
        // Of a thousand.
        let with = |wanted: &dyn Fn(&Asked) -> bool| {
            let found = asked.iter().filter(|asked| wanted(asked));
            1_000 * found.count() / asked.len()
        };
        let numbers: BTreeSet<i64> = asked.iter().map(|asked| asked.answer.number).collect();
        assert!(numbers.is_superset(&BTreeSet::from([0, 14, 16, 20])));
        for (number, times, least) in [
            (0, 2, 30),
            (0, 3, 10),
            (0, 63, 1),
            (14, 1, 20),
            (14, 2, 5),
            (16, 64, 5),
            (20, 1, 10),
            (20, 2, 10),
            (20, 3, 5),
        ] {
            let met = with(&|asked| asked.answer.number == number && asked.times() == times);
            assert!(met >= least, "{number} after {times}: {met}");
        }
    }

    #[test]
    fn parameters_of_every_type_are_handed_on() {
        let mut met = BTreeSet::new();
        for (draft, _, asked) in drafts() {
            for asked in asked {
                let Answer {
                    number, typ, value, ..
                } = asked.answer;
                if number != 0 || asked.times() < 3 {
                    continue;
                }
                // The question is head, attribute number, node and parameter; the value may be the parameter.
                let base = Base::ALL[typ as usize];
                let bytes = (value as i32).to_le_bytes();
                let value = Value::from_bytes(base, bytes, draft.nodes.len());
                if literal(value.expect("a value of its type")) == asked.question[5..] {
                    met.insert(typ);
                }
            }
        }
        assert!(met.into_iter().eq(0..4));
    }

    #[test]
    fn figures_rules_and_forwards_stand_before_each_other() {
        let [mut figures, mut rules, mut forwards, mut nothing_else] = [0; 4];
        for (draft, sheet, _) in drafts() {
            for (node, kind) in (0..).zip(&draft.nodes) {
                if !draft.has_forward(*kind) {
                    continue;
                }
                let mut of_node = [0; 3];
                for attribute in 0..draft.attributes.len() as u8 {
                    of_node[match sheet.definition(node, attribute) {
                        Definition::Figure(_) => 0,
                        Definition::Rule(_) => 1,
                        Definition::Forward(_) => 2,
                    }] += 1;
                }
                figures += of_node[0];
                rules += of_node[1];
                forwards += of_node[2];
                nothing_else += usize::from(of_node[0] < 3 && of_node[1] == 0);
            }
        }
        for count in [figures, rules, forwards, nothing_else] {
            assert!(count > 1_000, "{figures} {rules} {forwards} {nothing_else}");
        }
    }
}

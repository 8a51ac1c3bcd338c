//! Inputs that a hostile owner would choose, made in code and without chance: keys that collide in the store's index, open forms that do so, branches
//! that are passed over, deep nesting, wide fan-out, and a full store without what is asked.

use std::mem;

use trials::collide::{of_one_bucket, Key, ATTRIBUTES, LONGEST_PATH};
use trials::write::*;

use crate::inputs::{empty, hops, nested};
use crate::programs::Input;

/// How many kinds there are.
const KINDS: usize = 16;

/// The last attributes of a sheet, with their rules for nodes of kind 0: each is the one before it, `NESTED` times.
fn nests(first: u8, last: u8) -> Vec<u8> {
    (first..=last)
        .flat_map(|k| rule(0, k, &nested(k - 1)))
        .collect()
}

/// The commands of one node with some attributes of one type. Attribute 0 is a rule, and each further one nests the one before it.
fn nests_of(typ: u8, attributes: u8, rule_0: &[u8]) -> Vec<u8> {
    let sheet = [
        attribute(typ, typ).repeat(attributes.into()),
        node(0),
        rule(0, 0, rule_0),
        nests(1, attributes - 1),
        end(),
    ];
    sheet.concat()
}

/// Attribute k of node 0, of that attribute, `times` times, of an expression.
fn asked(k: u8, times: usize, inner: Vec<u8>) -> Vec<u8> {
    (0..times).fold(inner, |inner, _| of(&node_literal(0), k, &inner))
}

/// The last of attributes that nest, of a literal, and 49 times the one before it: 949,754 steps where a third before these takes one.
fn million(last: u8, literal: Vec<u8>) -> Vec<u8> {
    asked(last - 1, 49, asked(last, 1, literal))
}

/// A store of some keys, of which one of node 0's attribute 0 is looked up again and again: its value is its parameter. Other attributes
/// are 1, so that sums of them fit.
fn look_ups(keys: &[Key], sought: u32) -> Input {
    const NODES: usize = 1_024;
    const LAST: u8 = ATTRIBUTES + 2;
    let sought = sought as i32;
    let sheet = [
        attribute(INT_TYPE, INT_TYPE).repeat(usize::from(LAST) + 1),
        node(0).repeat(NODES),
        figure(0, 0, sought),
        (0..ATTRIBUTES).flat_map(|k| rule(0, k, &int(1))).collect(),
        rule(0, ATTRIBUTES, &nested(0)),
        nests(ATTRIBUTES + 1, LAST),
        end(),
    ];
    let stored = |key: &Key| entry(key.node, key.attribute, INT_TYPE, key.word as i32, sought);
    Input {
        sheet: sheet.concat(),
        question: million(LAST, int(sought)),
        kept: keys.len() as u64,
        store: keys.iter().flat_map(stored).collect(),
        ..Input::default()
    }
}

/// The parameter at the end of the longest path, and the keys of its bucket.
fn path() -> (u32, Vec<Key>) {
    let keys = of_one_bucket(0, 12_345);
    (keys[LONGEST_PATH - 1].word, keys)
}

/// A lent store of 1,024 keys that all fall into one bucket. The one at the end of the longest path is looked up again and
/// again: 949,754 steps, of which 7,190 open a form and the others find it.
pub fn one_bucket() -> Input {
    let (sought, keys) = path();
    look_ups(&keys, sought)
}

/// As `one_bucket`, in a store that is empty at first: 57 questions fill it, each a sum of 18 of the keys.
pub fn one_bucket_by_questions() -> Input {
    let (sought, keys) = path();
    let part = |key: &Key| {
        let parameter = int(key.word as i32);
        of(&node_literal(key.node), key.attribute, &parameter)
    };
    Input {
        before: keys
            .chunks(18)
            .map(|keys| sum(keys.iter().map(part)))
            .collect(),
        kept: 0,
        store: empty(keys.len()),
        ..look_ups(&keys, sought)
    }
}

/// As `one_bucket`, and what is looked up is the one key that the longest path lacks.
pub fn one_bucket_missed() -> Input {
    let (sought, mut keys) = path();
    keys.retain(|key| (key.node, key.attribute, key.word) != (0, 0, sought));
    look_ups(&keys, sought)
}

/// As `one_bucket`, with the parameters from 0 to 1,023 for one node's attribute.
pub fn spread() -> Input {
    let key = |word| Key {
        node: 0,
        attribute: 0,
        word,
    };
    let keys: Vec<Key> = (0..1_024).map(key).collect();
    look_ups(&keys, 511)
}

/// 61 keys of one bucket, those of the longest path first, but for the one at its end. Each has a node of its own, and comes with the kind of that:
/// no two of a kind have one attribute.
fn open_keys() -> Vec<(Key, u8)> {
    const OPEN: usize = 61;
    let mut open: Vec<(Key, u8)> = Vec::new();
    for key in path().1 {
        let others = || open.iter().map(|(other, _)| other);
        let kind = 1 + others()
            .filter(|other| other.attribute == key.attribute)
            .count();
        // The key at the end is of node 0.
        if key.node != 0 && kind < KINDS && others().all(|other| other.node != key.node) {
            open.push((key, kind as u8));
        }
    }
    open.truncate(OPEN);
    open
}

/// Open forms of keys of one bucket, and inside them the look-ups of the one key that their longest path lacks. The rule of each key asks for the next
/// one, and that of the last for attribute 17 of node 0: it is attribute 16, 84 times, and that is what is looked up, 84 times, with 63 forms around
/// it. The question descends 18 times, with capacity 0: 129,670 steps.
pub fn open_in_one_bucket() -> Input {
    const LAST: u8 = ATTRIBUTES + 1;
    let (sought, _) = path();
    let mut kinds = [0; 1_024];
    let mut rules = vec![vec![int(1); usize::from(LAST) + 1]; KINDS];
    rules[0][0] = PARAMETER.to_vec();
    rules[0][usize::from(ATTRIBUTES)] = nested(0);
    rules[0][usize::from(LAST)] = nested(ATTRIBUTES);
    // From the inside out.
    let mut inner = of(&node_literal(0), LAST, &int(sought as i32));
    for (key, kind) in open_keys().into_iter().rev() {
        kinds[usize::from(key.node)] = kind;
        let outer = of(
            &node_literal(key.node),
            key.attribute,
            &int(key.word as i32),
        );
        let rule = &mut rules[usize::from(kind)][usize::from(key.attribute)];
        *rule = mem::replace(&mut inner, outer);
    }
    let of_kind = |(kind, rules): (u8, &Vec<Vec<u8>>)| {
        let rules = (0..).zip(rules);
        let commands = rules.flat_map(move |(attribute, expr)| rule(kind, attribute, expr));
        commands.collect::<Vec<u8>>()
    };
    let sheet = [
        attribute(INT_TYPE, INT_TYPE).repeat(usize::from(LAST) + 1),
        kinds.into_iter().flat_map(node).collect(),
        (0..).zip(&rules).flat_map(of_kind).collect(),
        end(),
    ];
    Input {
        sheet: sheet.concat(),
        question: sum((0..18).map(|_| inner.clone())),
        ..Input::default()
    }
}

/// A Bool expression of heads of one byte, IF and the parameter, of a length that is 1 and a multiple of 3. Conditions, first and second
/// branches are nested by turns.
fn one_byte_heads(length: usize) -> Vec<u8> {
    let p = &PARAMETER[..];
    (0..length / 3).fold(p.to_vec(), |inner, turn| match turn % 3 {
        0 => if_else(p, &inner, p),
        1 => if_else(&inner, p, p),
        _ => if_else(p, p, &inner),
    })
}

/// Attribute 0 is a rule of 253 bytes: an IF that takes the parameter in one branch and passes over the other, of 250 bytes.
/// Every second step of 709,850 is such an IF. Capacity 0.
pub fn widest_branch(taken: bool) -> Input {
    let wide = one_byte_heads(250);
    let rule_0 = match taken {
        true => if_else(&PARAMETER, &PARAMETER, &wide),
        false => if_else(&PARAMETER, &wide, &PARAMETER),
    };
    let literal = if taken { TRUE } else { FALSE };
    Input {
        sheet: nests_of(BOOL_TYPE, 3, &rule_0),
        question: asked(2, 50, literal.to_vec()),
        ..Input::default()
    }
}

/// Attribute 1 of each of 63 nodes in a row negates that of the next node as often as a rule has room for, 83 times, and the 64th
/// negates a literal. All 64 forms are open with that many frames in each. The question descends 20 times: 108,799 steps. Capacity 0.
pub fn deepest_nesting() -> Input {
    const LAST: u16 = 63;
    let negated = |times: usize, inner: Vec<u8>| {
        (0..times).fold(inner, |inner, _| apply(&function(NOT), &inner))
    };
    let next = of(&THIS, 0, &UNIT);
    let descent = of(&node_literal(0), 1, &UNIT);
    let sheet = [
        attribute(NODE_TYPE, UNIT_TYPE),
        attribute(BOOL_TYPE, UNIT_TYPE),
        node(0).repeat(LAST.into()),
        node(1),
        (0..=LAST)
            .flat_map(|number| figure(number, 0, i32::from(number + 1) % i32::from(LAST + 1)))
            .collect(),
        rule(0, 1, &negated(83, of(&next, 1, &UNIT))),
        rule(1, 1, &negated(83, TRUE.to_vec())),
        end(),
    ];
    Input {
        sheet: sheet.concat(),
        question: (0..19).fold(descent.clone(), |inner, _| {
            if_else(&inner, &descent, &descent)
        }),
        ..Input::default()
    }
}

/// Attributes of which each opens as many forms as a rule has room for, 84, down to a rule that is its parameter: 949,754 steps, each of
/// which opens a form. Capacity 0.
pub fn widest_fan_out() -> Input {
    Input {
        sheet: nests_of(INT_TYPE, 4, &PARAMETER),
        question: million(3, int(7)),
        ..Input::default()
    }
}

/// A sheet of 2,337 bytes with the most pairs of a node and an attribute, 32,768, each of which is looked for: rules of one byte define them all.
pub fn most_pairs() -> Input {
    let sheet = [
        attribute(UNIT_TYPE, UNIT_TYPE).repeat(32),
        node(0).repeat(1_024),
        (0..32).flat_map(|a| rule(0, a, &UNIT)).collect(),
        end(),
    ];
    Input {
        sheet: sheet.concat(),
        ..Input::default()
    }
}

/// The hops along the ring that keep nothing, in a store that is full of what is not asked: 917,501 steps, each of which misses.
pub fn full_store() -> Input {
    let entries = (0..1_021).flat_map(|number| entry(number, 19, NODE_TYPE, 0, 0));
    Input {
        store: entries.collect(),
        kept: 1_021,
        ..hops(0)
    }
}

#[cfg(test)]
mod tests {
    use super::*;
    use crate::programs::{counts, places};
    use sofretu_sys::Place;
    use trials::collide::depths;

    #[test]
    fn the_counts_are_as_said() {
        assert_eq!(counts(&spread()), (949_754, 1_024));
        assert_eq!(counts(&one_bucket()), (949_754, 1_024));
        assert_eq!(counts(&one_bucket_by_questions()), (949_754, 1_024));
        assert_eq!(counts(&one_bucket_missed()), (949_754, 1_023));
        assert_eq!(counts(&widest_branch(true)), (709_850, 0));
        assert_eq!(counts(&widest_branch(false)), (709_850, 0));
        assert_eq!(counts(&deepest_nesting()), (108_799, 0));
        assert_eq!(counts(&widest_fan_out()), (949_754, 0));
        assert_eq!(counts(&full_store()), (917_501, 1_021));
        assert_eq!(counts(&open_in_one_bucket()), (129_670, 0));
        assert_eq!(most_pairs().sheet.len(), 2_337);
    }

    /// How many entries the search for each key sees, when all fall into one bucket of the engine's index.
    fn depths_in_one_bucket(input: &Input) -> Vec<usize> {
        let places = places(input);
        let depth = |place: &Place| {
            assert_eq!(place.bucket, places[0].bucket);
            place.depth
        };
        places.iter().map(depth).collect()
    }

    #[test]
    fn the_keys_of_one_bucket_collide_in_the_engine() {
        let depths = depths_in_one_bucket(&one_bucket());
        assert_eq!(depths.len(), 1_024);
        // The last of these is the one that is looked up.
        let path: Vec<usize> = (1..=LONGEST_PATH).collect();
        assert_eq!(depths[..LONGEST_PATH], path);
        assert_eq!(depths.iter().max(), Some(&LONGEST_PATH));
        let sum: usize = depths.iter().sum();
        assert!(sum > 12 * depths.len(), "{sum} entries in all");
        assert_eq!(depths_in_one_bucket(&one_bucket_by_questions()), depths);
    }

    #[test]
    fn what_is_missed_in_one_bucket_lies_behind_the_longest_path() {
        let (sought, _) = path();
        let mut input = one_bucket_missed();
        input.store.extend(entry(0, 0, INT_TYPE, sought as i32, 0));
        input.kept += 1;
        assert_eq!(depths_in_one_bucket(&input).last(), Some(&LONGEST_PATH));
    }

    #[test]
    fn what_is_looked_up_inside_open_forms_lies_behind_the_longest_path() {
        let (sought, _) = path();
        let mut keys: Vec<Key> = open_keys().into_iter().map(|(key, _)| key).collect();
        assert_eq!(keys.len(), 61);
        keys.push(Key {
            node: 0,
            attribute: 0,
            word: sought,
        });
        assert!(keys.iter().all(|key| key.bucket() == keys[0].bucket()));
        assert_eq!(depths(&keys).last(), Some(&LONGEST_PATH));
    }

    #[test]
    fn spread_keys_are_spread_in_the_engine() {
        let places = places(&spread());
        // The one that is looked up.
        assert_eq!(places[511].depth, 1);
        assert!(places.iter().all(|place| place.depth <= 2));
    }
}

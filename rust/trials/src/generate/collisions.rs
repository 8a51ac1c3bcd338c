//! Keys that collide in the store's index: sheets and questions that name them, and stores that hold them.

use calls::index::BUCKETS;
use oracle::sheet::MOST_NODES;
use oracle::store::ENTRY;
use oracle::values::{Base, Value};

use super::draft::{int, small_int, Draft};
use super::rng::Rng;
use super::writer::{apply, literal, number};
use crate::collide::{of_one_bucket, of_pair, Key, ATTRIBUTES, LONGEST_PATH};
use crate::write::{entry, if_else, of, sum, INT_TYPE};

/// Keys that fall into one bucket.
#[derive(Clone)]
pub struct Colliding {
    keys: Vec<Key>,
    /// The attribute that sums up as many of them as rules have room for.
    all: u8,
    /// How an Int is drawn that a key has for its value.
    value: fn(&mut Rng) -> i32,
}

/// Attributes with an Int parameter, others that sum up keys that collide, and one that sums up those.
pub fn draft(rng: &mut Rng) -> Draft {
    const SUMS: usize = 14;
    const PARTS: usize = 18;
    let mut draft = Draft::default();
    // Sums of any values seldom fit: what comes after the first that does not is never kept.
    let small = !rng.once_in(4);
    let value = if small { small_int } else { int };
    for attribute in 0..ATTRIBUTES {
        draft.attribute(Base::Int, Base::Int);
        let rule = match rng.below(3) {
            0 => number(value(rng)),
            _ if small => {
                let side = apply(0, &[&[0x31], &number(rng.draw() as i32)]);
                if_else(&side, &number(value(rng)), &number(value(rng)))
            }
            1 => vec![0x31],
            _ => apply(4, &[&[0x31], &number(value(rng))]),
        };
        draft.rules.push((0, attribute, rule));
    }
    for _ in 0..MOST_NODES {
        draft.node(0);
    }
    if rng.once_in(2) {
        draft.figures.push((0, 0, Value::Int(value(rng))));
    }
    let keys = keys(rng);
    let mut sums = Vec::new();
    for keys in keys.chunks(PARTS).take(SUMS) {
        let attribute = draft.attribute(Base::Int, Base::Unit);
        draft.rules.push((0, attribute, sum_of(keys)));
        sums.push(of(&[0x30], attribute, &[0x10]));
    }
    let all = draft.attribute(Base::Int, Base::Unit);
    draft.rules.push((0, all, sum(sums)));
    draft.colliding = Some(Colliding { keys, all, value });
    draft
}

/// Keys of one bucket: of one node's attribute, along paths as chance has it; along the longest path; or deep in it.
fn keys(rng: &mut Rng) -> Vec<Key> {
    let node = rng.below(MOST_NODES) as u16;
    let bits = rng.draw() as u32;
    let mut keys = match rng.below(3) {
        0 => {
            let bucket = rng.below(BUCKETS);
            let mut drawn: Vec<u32> = (0..rng.between(2, 600))
                .map(|_| rng.draw() as u32 % (1 << 22))
                .collect();
            drawn.sort();
            drawn.dedup();
            drawn.sort_by_key(|bits| bits.reverse_bits());
            let key = |bits: &u32| of_pair(node, 0, bucket, *bits);
            drawn.iter().map(key).collect()
        }
        1 => of_one_bucket(node, bits)[..LONGEST_PATH].to_vec(),
        _ => of_one_bucket(node, bits),
    };
    if rng.once_in(4) {
        keys.reverse();
    }
    keys
}

/// The sum of the attributes that some keys name.
fn sum_of(keys: &[Key]) -> Vec<u8> {
    let part = |key: &Key| {
        let node = literal(Value::Node(Some(key.node)));
        of(&node, key.attribute, &number(key.word as i32))
    };
    sum(keys.iter().map(part))
}

impl Colliding {
    /// The sum of all, or of some that stand one after the other.
    pub fn question(&self, rng: &mut Rng) -> Vec<u8> {
        const MOST: usize = 18;
        if rng.once_in(3) {
            let node = literal(Value::Node(Some(rng.below(MOST_NODES) as u16)));
            return of(&node, self.all, &[0x10]);
        }
        let start = rng.below(self.keys.len());
        let end = self.keys.len().min(start + rng.between(1, MOST));
        sum_of(&self.keys[start..end])
    }

    /// Writes entries with any values, in the keys' order, and gives their number.
    pub fn fill(&self, rng: &mut Rng, store: &mut [u8]) -> u64 {
        let mut kept = 0;
        for (place, key) in store.chunks_exact_mut(ENTRY).zip(&self.keys) {
            let word = key.word as i32;
            let value = (self.value)(rng);
            place.copy_from_slice(&entry(key.node, key.attribute, INT_TYPE, word, value));
            kept += 1;
        }
        kept
    }
}

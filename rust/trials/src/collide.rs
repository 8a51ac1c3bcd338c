//! Keys of the store's index as a hostile owner would choose them, who can read its functions: of one bucket, and along one path of digits.

use std::collections::HashSet;

pub use calls::index::Key;
use calls::index::{ATTRIBUTE_BIT, BASE, BUCKETS};

/// The entries of the longest path: one for each digit of the trail of a declared node's attribute, and one.
pub const LONGEST_PATH: usize = 14;
/// The attributes that `of_one_bucket` names, from 0 on.
pub const ATTRIBUTES: u8 = 16;

/// The key of a bucket with an attribute and a parameter: there is a node for each bucket.
fn in_bucket(bucket: usize, attribute: u8, word: u32) -> Key {
    let key = |node: usize| Key {
        node: node as u16,
        attribute,
        word,
    };
    // The bucket of node 0 is how far the attribute and the parameter turn the buckets of all.
    key((bucket + BUCKETS - key(0).bucket()) % BUCKETS)
}

/// How many entries the search for each key passes, its own among them, when the keys are appended in this order.
pub fn depths(keys: &[Key]) -> Vec<usize> {
    let mut taken = HashSet::new();
    let depth = |key: &Key| {
        let mut rest = key.trail();
        let mut place = vec![key.bucket()];
        while !taken.insert(place.clone()) {
            place.push(rest as usize % BASE);
            rest /= BASE as u64;
        }
        place.len()
    };
    keys.iter().map(depth).collect()
}

/// A key of a node's attribute that falls into a bucket: its parameter has the lowest 22 bits that are given.
pub fn of_pair(node: u16, attribute: u8, bucket: usize, bits: u32) -> Key {
    let low = bits % (1 << 22);
    let key = |high: u32| Key {
        node,
        attribute,
        word: low + (high << 22),
    };
    (0..1_024)
        .map(key)
        .find(|key| key.bucket() == bucket)
        .expect("the highest ten bits turn the bucket by each number of places once")
}

/// 1,024 keys of one bucket. The first `LONGEST_PATH` make the longest path, and the last of these is attribute 0 of a node; most
/// of the others lie as deep. The nodes are any, the attributes those below `ATTRIBUTES`.
pub fn of_one_bucket(node: u16, bits: u32) -> Vec<Key> {
    let sought = Key {
        node,
        attribute: 0,
        // No attribute is more than what is left of the parameter below its highest bits.
        word: bits | u32::from(ATTRIBUTES),
    };
    // The key whose trail differs in some bits of the lowest 32 and of the attribute.
    let other = |low: u32, attribute: u8| {
        let word = (sought.word ^ low) - u32::from(attribute);
        in_bucket(sought.bucket(), attribute, word)
    };
    let differing = |digit: u32| match (3 * digit).checked_sub(ATTRIBUTE_BIT) {
        None => other(1 << (3 * digit), 0),
        Some(bit) => other(0, 1 << bit),
    };
    let mut keys: Vec<Key> = (0..LONGEST_PATH as u32 - 1).map(differing).collect();
    keys.push(sought);
    let highest = (0..64).flat_map(|bits| (0..ATTRIBUTES).map(move |a| (bits << 26, a)));
    let deep: Vec<Key> = highest
        .map(|(low, attribute)| other(low, attribute))
        .filter(|key| !keys.contains(key))
        .collect();
    keys.extend(deep);
    keys.truncate(1_024);
    keys
}

#[cfg(test)]
mod tests {
    use super::*;

    #[test]
    fn the_keys_are_different_and_of_one_bucket() {
        for (node, bits) in [(0, 0), (0, 12_345), (1_023, u32::MAX), (7, 99)] {
            let keys = of_one_bucket(node, bits);
            assert_eq!(keys.iter().collect::<HashSet<_>>().len(), 1_024);
            for key in keys.iter().copied() {
                assert_eq!(key.bucket(), keys[0].bucket());
                assert!(key.node < 1_024 && key.attribute < ATTRIBUTES);
                let pair = of_pair(key.node, key.attribute, key.bucket(), key.word);
                assert_eq!(pair, key);
            }
        }
    }

    #[test]
    fn the_first_keys_make_the_longest_path() {
        for (node, bits) in [(0, 12_345), (1_023, u32::MAX)] {
            let keys = of_one_bucket(node, bits);
            assert_eq!(keys[LONGEST_PATH - 1].node, node);
            let depths = depths(&keys);
            assert_eq!(
                depths[..LONGEST_PATH],
                (1..=LONGEST_PATH).collect::<Vec<_>>()
            );
            assert_eq!(depths.iter().max(), Some(&LONGEST_PATH));
            let sum: usize = depths.iter().sum();
            assert!(sum > 12 * depths.len(), "{sum} entries in all");
        }
    }
}

//! Where the store's index has a key: the engine's `bucket` and `trail` (`crates/stores`), for the twin and for those who choose keys that
//! collide. `compare/tests/collisions.rs` holds them to the library.

/// How many buckets there are.
pub const BUCKETS: usize = 1_024;
/// The base of the digits that lead through a bucket.
pub const BASE: usize = 8;
/// The bit of a trail from which on the attribute stands.
pub const ATTRIBUTE_BIT: u32 = 33;

/// What an entry is found by.
#[derive(Clone, Copy, Debug, PartialEq, Eq, Hash)]
pub struct Key {
    /// The number of the node.
    pub node: u16,
    /// The number of the attribute.
    pub attribute: u8,
    /// The parameter's four bytes as a number.
    pub word: u32,
}

impl Key {
    /// The key's bucket. Attribute and parameter turn the buckets of the nodes.
    #[inline]
    #[must_use]
    pub fn bucket(self) -> usize {
        let turn = u64::from(self.attribute) * 2_246_822_519 + u64::from(self.word) * 2_654_435_769;
        (u64::from(self.node) + (turn >> 22)) as usize % BUCKETS
    }

    /// The number whose digits lead through the bucket, the lowest first: it tells apart the keys that the bucket does not.
    #[inline]
    #[must_use]
    pub fn trail(self) -> u64 {
        let attribute = u64::from(self.attribute);
        let above = attribute + 256 * (u64::from(self.node) / BUCKETS as u64);
        u64::from(self.word) + attribute + (above << ATTRIBUTE_BIT)
    }
}

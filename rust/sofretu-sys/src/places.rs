//! Where the entries lie in a checked store, read off the words that the library left: for tests of how far a search goes.

use crate::CheckedStore;

/// The cells of the buckets, which stand first.
const BUCKETS: usize = 1_024;
/// The cells of an entry, for those that lie below it. They stand behind the buckets, entry by entry.
const FAN_OUT: usize = 8;

/// Where an entry lies.
#[derive(Clone, Copy, Debug, PartialEq, Eq)]
pub struct Place {
    /// Its bucket.
    pub bucket: usize,
    /// How many entries the search for it sees, itself among them.
    pub depth: usize,
}

impl CheckedStore {
    /// The places of the kept entries, by their numbers, after a check or a question that left so many.
    ///
    /// # Panics
    ///
    /// Another number of entries lies in the words, or one of them in two cells.
    #[doc(hidden)]
    pub fn places(&self, kept: usize) -> Vec<Place> {
        let mut places = vec![None; kept];
        let first = |bucket: usize| (bucket, Place { bucket, depth: 1 });
        let mut cells: Vec<(usize, Place)> = (0..BUCKETS).map(first).collect();
        while let Some((cell, place)) = cells.pop() {
            // A cell holds the number of an entry and one, or 0.
            let Some(entry) = usize::from(self.words[cell]).checked_sub(1) else {
                continue;
            };
            let other = places[entry].replace(place);
            assert_eq!(other, None, "entry {entry} lies in two cells");
            let depth = place.depth + 1;
            let below = BUCKETS + FAN_OUT * entry;
            cells.extend((below..below + FAN_OUT).map(|cell| (cell, Place { depth, ..place })));
        }
        let found = places.into_iter().map(|place| place.expect("a place"));
        found.collect()
    }
}

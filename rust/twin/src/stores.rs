//! The store: its check (stops 9 and 10) with an index over the kept entries, by which an occurrence is found.

use calls::index::{Key, BASE, BUCKETS};
use calls::{Refusal, Stop};

use crate::bytes::{four, two};
use crate::sheets::Sheet;
use crate::values::Value;

const ENTRY: usize = 12;
const MOST_ENTRIES: usize = 1_024;
/// The digits of a trail.
const DIGITS: usize = 16;
pub const LINKS_SIZE: usize = BUCKETS + BASE * MOST_ENTRIES;

/// A digital search tree for each bucket: the bucket's first entry, then for each entry the next one by each digit. An entry is its number
/// and one, 0 is none.
pub type Links = [u16; LINKS_SIZE];

/// A checked store.
pub struct Store<'a> {
    pub entries: &'a mut [[u8; ENTRY]],
    pub kept: usize,
    pub links: &'a mut Links,
}

/// The key in the bytes of an entry.
fn key_of(entry: &[u8; ENTRY]) -> Key {
    Key {
        node: two(entry, 0),
        attribute: entry[2],
        word: four(entry, 4),
    }
}

/// What a search finds.
pub enum Found {
    /// The value kept.
    Value(u32),
    /// Nothing, and the free link where the key's entry would hang.
    Nothing(usize),
}

impl<'a> Store<'a> {
    /// Checks a lent store and fills the index.
    pub fn check(
        sheet: &Sheet,
        bytes: &'a mut [u8],
        kept: u64,
        links: &'a mut Links,
    ) -> Result<Store<'a>, Refusal> {
        let (entries, rest) = bytes.as_chunks_mut();
        if !rest.is_empty() || entries.len() > MOST_ENTRIES || kept > entries.len() as u64 {
            return Err(Stop::StoreShape.into());
        }
        links[..BUCKETS].fill(0);
        let mut store = Store {
            entries,
            kept: 0,
            links,
        };
        for number in 0..kept as usize {
            let entry = &store.entries[number];
            let key = key_of(entry);
            let faulty = Stop::StoreEntry.at(number as u64);
            if !is_entry(sheet, entry, key) {
                return Err(faulty);
            }
            match store.find(key) {
                Found::Nothing(free) => store.link(free),
                Found::Value(_) => return Err(faulty),
            }
        }
        Ok(store)
    }

    /// The value of an occurrence, where it is kept. Most keys are the first of their bucket, or their bucket is empty.
    #[inline(always)]
    pub fn find(&self, key: Key) -> Found {
        let bucket = key.bucket();
        match self.links[bucket] as usize {
            0 => Found::Nothing(bucket),
            first => {
                let entry = &self.entries[first - 1];
                if key_of(entry) == key {
                    return Found::Value(four(entry, 8));
                }
                self.find_below(first, key)
            }
        }
    }

    /// As `find`, for a key that is not that of its bucket's first entry.
    #[inline(always)]
    fn find_below(&self, first: usize, key: Key) -> Found {
        let mut place = first;
        let mut rest = key.trail();
        for _ in 0..DIGITS {
            let link = BUCKETS + BASE * (place - 1) + rest as usize % BASE;
            rest /= BASE as u64;
            place = self.links[link] as usize;
            if place == 0 {
                return Found::Nothing(link);
            }
            let entry = &self.entries[place - 1];
            if key_of(entry) == key {
                return Found::Value(four(entry, 8));
            }
        }
        unreachable!("two entries with one key")
    }

    /// The entry after the kept ones, whose bytes stand in the store already, is kept too. `free` is what the search for its key gave.
    fn link(&mut self, free: usize) {
        let below = BUCKETS + BASE * self.kept;
        self.links[below..below + BASE].fill(0);
        self.kept += 1;
        self.links[free] = self.kept as u16;
    }

    /// Appends an occurrence that is not kept, if the store is not full. `free` is what the search for it gave.
    pub fn append(&mut self, free: usize, key: Key, value: Value) {
        if let Some(entry) = self.entries.get_mut(self.kept) {
            entry[..2].copy_from_slice(&key.node.to_le_bytes());
            entry[2] = key.attribute;
            entry[3] = value.type_code();
            entry[4..8].copy_from_slice(&key.word.to_le_bytes());
            entry[8..].copy_from_slice(&value.word().to_le_bytes());
            self.link(free);
        }
    }

    /// CacheWrite. An occurrence that is open is not kept. `free` is what the search for it gave when it was opened: where an entry hangs there
    /// by now, the search goes on.
    pub fn write(&mut self, free: usize, key: Key, value: Value) {
        if self.kept < self.entries.len() {
            let free = match self.links[free] {
                0 => free,
                _ => match self.find(key) {
                    Found::Nothing(free) => free,
                    Found::Value(_) => unreachable!("an open occurrence is kept"),
                },
            };
            self.append(free, key, value);
        }
    }
}

/// Whether an entry is one of the sheet's, leaving aside whether its occurrence was kept before.
fn is_entry(sheet: &Sheet, entry: &[u8; ENTRY], key: Key) -> bool {
    usize::from(key.node) < sheet.nodes
        && usize::from(key.attribute) < sheet.attributes
        && entry[3] == sheet.result(key.attribute).code()
        && sheet.parameter(key.attribute).has(key.word, sheet.nodes)
        && sheet.result(key.attribute).has(four(entry, 8), sheet.nodes)
}

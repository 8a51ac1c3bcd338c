//! The occurrences of the open forms, and whether one is among them (document 02, F-9).

use calls::index::{Key, BUCKETS};

use crate::machine::MOST_OPEN;

/// The occurrences of the open forms, from the outside in. Nothing is asked of what the places behind them hold.
pub struct Occurrences {
    /// Each as one number, side by side to be gone through.
    numbers: [u64; MOST_OPEN],
    /// The bucket of each, and what `last` had for that bucket before.
    buckets: [(u16, u8); MOST_OPEN],
    /// For a bucket that some of them fall into, the place of the last; for another, a place that is not open or has another bucket.
    last: [u8; BUCKETS],
}

impl Default for Occurrences {
    fn default() -> Occurrences {
        Occurrences {
            numbers: [0; MOST_OPEN],
            buckets: [(0, 0); MOST_OPEN],
            last: [0; BUCKETS],
        }
    }
}

fn number(key: Key) -> u64 {
    u64::from(key.word) | u64::from(key.attribute) << 32 | u64::from(key.node) << 40
}

impl Occurrences {
    /// Whether an occurrence is one of so many. Most have a bucket that none of them falls into; else a few compares at a time are quicker than
    /// to follow those of its bucket.
    #[inline(always)]
    pub fn has(&self, open: usize, key: Key) -> bool {
        let bucket = key.bucket();
        let last = usize::from(self.last[bucket]);
        last < open
            && usize::from(self.buckets[last].0) == bucket
            && self.numbers[..open].contains(&number(key))
    }

    /// A form opens, inside so many.
    #[inline(always)]
    pub fn open(&mut self, around: usize, key: Key) {
        let bucket = key.bucket();
        self.numbers[around] = number(key);
        self.buckets[around] = (bucket as u16, self.last[bucket]);
        self.last[bucket] = around as u8;
    }

    /// The last form closes, inside so many.
    #[inline(always)]
    pub fn close(&mut self, around: usize) {
        let (bucket, before) = self.buckets[around];
        // The remainder says that it is a bucket, and no index is tested.
        self.last[usize::from(bucket) % BUCKETS] = before;
    }
}

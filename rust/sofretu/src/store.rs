//! The store that questions are lent.

use calls::{Refusal, Stop};

use crate::value::Value;

/// The length of an entry in bytes.
pub const ENTRY: usize = 12;

/// The greatest capacity in entries.
pub const MOST_ENTRIES: usize = 1_024;

/// A run of entries and how many of them are kept. It may hold anything: a [`Session`](crate::Session) checks it.
///
/// ```
/// use sofretu::Store;
///
/// let store = Store::with_capacity(3);
/// assert_eq!((store.capacity(), store.kept()), (3, 0));
/// let (bytes, kept) = store.into_parts();
/// assert_eq!(Store::from_parts(bytes, kept).bytes(), [0; 36]);
/// assert_eq!(Store::default().capacity(), sofretu::MOST_ENTRIES);
/// ```
#[derive(Clone, Debug, PartialEq, Eq)]
pub struct Store {
    bytes: Vec<u8>,
    kept: u64,
}

/// A kept figure: what twelve bytes of a store tell without the sheet that they were kept for.
#[derive(Clone, Copy, Debug, PartialEq, Eq, Hash)]
#[non_exhaustive]
pub struct Entry {
    /// The node.
    pub node: u16,
    /// The attribute.
    pub attribute: u8,
    /// The four bytes of the parameter as a number. Only the sheet tells the parameter's type.
    pub parameter: u32,
    /// The value, of the type that the entry carries.
    pub value: Value,
}

impl Entry {
    /// The entry in some bytes: node (2), attribute (1), type code of the value (1), parameter (4), value (4). None if they have another
    /// length, the code is no type's, or the last four are no value of that type on any sheet.
    fn from_bytes(bytes: &[u8]) -> Option<Entry> {
        let &[n0, n1, attribute, code, p0, p1, p2, p3, v0, v1, v2, v3] = bytes else {
            return None;
        };
        Some(Entry {
            node: u16::from_le_bytes([n0, n1]),
            attribute,
            parameter: u32::from_le_bytes([p0, p1, p2, p3]),
            value: Value::from_word(code, [v0, v1, v2, v3])?,
        })
    }
}

impl Store {
    /// A store with room for this many entries and nothing kept.
    ///
    /// No store may have room for over 1,024. For any greater number this makes one with room for 1,025, which a session refuses with stop 9,
    /// so that no more memory is taken, however great the number is.
    #[must_use]
    pub fn with_capacity(entries: usize) -> Store {
        Store::from_parts(vec![0; entries.min(MOST_ENTRIES + 1) * ENTRY], 0)
    }

    /// A store as it was left, such as one read from a file.
    #[must_use]
    pub fn from_parts(bytes: Vec<u8>, kept: u64) -> Store {
        Store { bytes, kept }
    }

    /// The bytes and the number kept.
    #[must_use]
    pub fn into_parts(self) -> (Vec<u8>, u64) {
        (self.bytes, self.kept)
    }

    /// All the bytes, kept entries first.
    #[must_use]
    pub fn bytes(&self) -> &[u8] {
        &self.bytes
    }

    /// How many entries are kept.
    #[must_use]
    pub fn kept(&self) -> u64 {
        self.kept
    }

    /// How many entries there is room for.
    #[must_use]
    pub fn capacity(&self) -> usize {
        self.bytes.len() / ENTRY
    }

    /// The kept entries in the order in which they were kept, read without a sheet.
    ///
    /// ```
    /// use sofretu::{Entry, Refusal, Store, Value};
    ///
    /// // 1.own is 0, 1.up is node 0, 0.own is 700, each with Unit parameter; and room for one entry more.
    /// let dump = [
    ///     1, 0, 1, 2, 0, 0, 0, 0, 0, 0, 0, 0, //
    ///     1, 0, 0, 3, 0, 0, 0, 0, 0, 0, 0, 0, //
    ///     0, 0, 1, 2, 0, 0, 0, 0, 0xBC, 2, 0, 0, //
    ///     0, 0, 0, 0, 0, 0, 0, 0, 0, 0, 0, 0, //
    /// ];
    /// let store = Store::from_parts(dump.to_vec(), 3);
    /// let entries = store.entries().collect::<Result<Vec<Entry>, Refusal>>()?;
    ///
    /// let values: Vec<Value> = entries.iter().map(|entry| entry.value).collect();
    /// assert_eq!(values, [Value::Int(0), Value::Node(Some(0)), Value::Int(700)]);
    /// assert_eq!((entries[2].node, entries[2].attribute, entries[2].parameter), (0, 1, 0));
    /// # Ok::<(), Refusal>(())
    /// ```
    ///
    /// Nothing is checked that needs a sheet, and no entry is compared with another: a [`Session`](crate::Session) does that. Bytes that no
    /// sheet lets pass are refused: a store of the wrong length, or with more kept than it has room for, is stop 9 and nothing else, and an
    /// entry whose code is no type's or whose value is none of its type is stop 10 with its number. Those after it can be read still.
    ///
    /// In dumps of before entries carried a type, their fourth byte is zero, Unit's code. So a value of another type in such a dump is read as Unit
    /// if its bytes are zeros, and refused otherwise.
    ///
    /// # Errors
    ///
    /// The items are stops 9 and 10 as said above.
    pub fn entries(&self) -> impl Iterator<Item = Result<Entry, Refusal>> + '_ {
        let room = self.bytes.len().is_multiple_of(ENTRY) && self.capacity() <= MOST_ENTRIES;
        let kept = usize::try_from(self.kept).ok();
        let shape = kept
            .filter(|kept| room && *kept <= self.capacity())
            .ok_or(Stop::StoreShape.into());
        let entries = self.bytes.chunks_exact(ENTRY).take(shape.unwrap_or(0));
        let read = (0..).zip(entries).map(|(number, bytes)| {
            Entry::from_bytes(bytes).ok_or_else(|| Stop::StoreEntry.at(number))
        });
        shape.err().map(Err).into_iter().chain(read)
    }

    /// Forgets what is kept. The bytes stay.
    pub fn clear(&mut self) {
        self.kept = 0;
    }

    /// What a call is lent, and where it leaves the number kept.
    pub(crate) fn lend(&mut self) -> (&mut [u8], &mut u64) {
        (&mut self.bytes, &mut self.kept)
    }
}

/// A store with room for 1,024 entries, the most there can be, and nothing kept.
impl Default for Store {
    fn default() -> Store {
        Store::with_capacity(MOST_ENTRIES)
    }
}

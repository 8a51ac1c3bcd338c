//! Document 01, "The steps", where it speaks of the store, and stops 9 and 10 of "Stops by origin"; document 02, F-6.

use std::collections::hash_map::{Entry, HashMap};
use std::hash::{Hash, Hasher};

use crate::expr::take;
use crate::sheet::Sheet;
use crate::stop::{Reason, Stop};
use crate::values::{Base, Value};

/// "Entries of 12 bytes".
pub const ENTRY: usize = 12;
/// "Capacity 0 to 1,024".
pub const MOST_ENTRIES: usize = 1_024;

/// An attribute occurrence (n, a, v).
#[derive(Clone, Copy, Debug, PartialEq, Eq)]
pub struct Occurrence {
    pub node: u16,
    pub attribute: u8,
    pub parameter: Value,
}

impl Hash for Occurrence {
    /// The hasher takes one number faster than the fields one by one.
    fn hash<H: Hasher>(&self, state: &mut H) {
        let parameter = u32::from_le_bytes(self.parameter.to_bytes());
        let pair = u64::from(self.node) << 8 | u64::from(self.attribute);
        state.write_u64(pair << 32 | u64::from(parameter));
    }
}

/// A lent store that has passed the checks, with its kept values by occurrence.
#[derive(Debug)]
pub struct Store<'s> {
    bytes: &'s mut [u8],
    kept: HashMap<Occurrence, Value>,
}

impl<'s> Store<'s> {
    /// Checks a lent store: stop 9, then 10 with "the first faulty entry's number from 0".
    pub fn open(bytes: &'s mut [u8], kept: u64, sheet: &Sheet) -> Result<Store<'s>, Stop> {
        let capacity = bytes.len() / ENTRY;
        if !well_shaped(bytes) || kept > capacity as u64 {
            return Err(Stop::of(Reason::StoreShape));
        }
        let mut values = HashMap::with_capacity(if kept > 0 { capacity } else { 0 });
        let entries = bytes.chunks_exact(ENTRY).take(kept as usize);
        for (number, entry) in entries.enumerate() {
            let faulty = Stop::at(Reason::StoreEntry, number);
            let (occurrence, value) = read_entry(entry, sheet).ok_or(faulty)?;
            if values.insert(occurrence, value).is_some() {
                return Err(faulty);
            }
        }
        Ok(Store {
            bytes,
            kept: values,
        })
    }

    /// The kept value of an occurrence.
    pub fn value(&self, occurrence: &Occurrence) -> Option<Value> {
        self.kept.get(occurrence).copied()
    }

    /// CacheWrite: "appends its occurrence if it is not kept and the store is not full; otherwise it changes nothing".
    pub fn write(&mut self, occurrence: Occurrence, value: Value) {
        if self.full() {
            return;
        }
        self.reserve();
        let at = self.kept.len() * ENTRY;
        if let Entry::Vacant(free) = self.kept.entry(occurrence) {
            self.bytes[at..at + ENTRY].copy_from_slice(&entry(occurrence, value));
            free.insert(value);
        }
    }

    fn full(&self) -> bool {
        self.kept.len() * ENTRY == self.bytes.len()
    }

    /// Room for all that the store can keep, before the first is kept. A store in which nothing is ever kept needs none.
    fn reserve(&mut self) {
        if self.kept.is_empty() {
            self.kept.reserve(self.bytes.len() / ENTRY);
        }
    }

    /// The number kept.
    pub fn kept(&self) -> usize {
        self.kept.len()
    }
}

/// Stop 9 holds of a "store length no multiple of 12 or over 12,288".
pub fn well_shaped(store: &[u8]) -> bool {
    store.len().is_multiple_of(ENTRY) && store.len() <= ENTRY * MOST_ENTRIES
}

/// The bytes of an entry: "node (2), attribute (1), a zero byte, parameter (4), value (4)", where "the fourth byte of an entry, zero until
/// now, carries the type code of the entry's value" (document 02, F-6).
pub fn entry(occurrence: Occurrence, value: Value) -> [u8; ENTRY] {
    let [n0, n1] = occurrence.node.to_le_bytes();
    let code = value.base().expect("no function is kept").code();
    let [p0, p1, p2, p3] = occurrence.parameter.to_bytes();
    let [v0, v1, v2, v3] = value.to_bytes();
    let attribute = occurrence.attribute;
    [n0, n1, attribute, code, p0, p1, p2, p3, v0, v1, v2, v3]
}

/// The occurrence and the value of a kept entry. Stop 10 holds of one "with undeclared node or attribute, ..., bytes that are no value of
/// the type", and "where it is not the attribute's result type" of the type code.
fn read_entry(entry: &[u8], sheet: &Sheet) -> Option<(Occurrence, Value)> {
    let (node, rest) = take::<2>(entry)?;
    let ([attribute, code], rest) = take::<2>(rest)?;
    let (parameter, rest) = take::<4>(rest)?;
    let (value, _) = take::<4>(rest)?;
    let nodes = sheet.node_count();
    let node = u16::from_le_bytes(node);
    if usize::from(node) >= nodes {
        return None;
    }
    let declared = sheet.declared(attribute)?;
    if Base::from_code(code) != Some(declared.result) {
        return None;
    }
    let parameter = Value::from_bytes(declared.parameter, parameter, nodes)?;
    let value = Value::from_bytes(declared.result, value, nodes)?;
    let occurrence = Occurrence {
        node,
        attribute,
        parameter,
    };
    Some((occurrence, value))
}

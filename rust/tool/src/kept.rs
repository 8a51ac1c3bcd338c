//! The figures that are kept, as the explanation keeps them: a copy beside the library's store.

use std::collections::HashMap;

use sofretu::{Value, ENTRY};

use crate::expression::{value, word};
use crate::sheet::Sheet;

/// An attribute of a node with its parameter.
#[derive(Clone, Copy, Debug, PartialEq, Eq, Hash)]
pub struct Occurrence {
    /// The node.
    pub node: u16,
    /// The attribute.
    pub attribute: u8,
    /// The parameter.
    pub parameter: Value,
}

/// The kept figures in their order, and how many there is room for.
#[derive(Clone, Debug, Default)]
pub struct Kept {
    bytes: Vec<u8>,
    values: HashMap<Occurrence, (Value, usize)>,
    capacity: usize,
}

impl Kept {
    /// The kept entries of a store that the library let pass for this sheet. None if they are no such entries.
    pub fn read(sheet: &Sheet, bytes: &[u8], capacity: usize) -> Option<Kept> {
        let mut kept = Kept {
            capacity,
            ..Kept::default()
        };
        for entry in bytes.chunks(ENTRY) {
            let (occurrence, value) = read_entry(sheet, entry)?;
            kept.write(occurrence, value)?;
        }
        Some(kept)
    }

    /// The kept value of an occurrence, and the number of its entry.
    pub fn find(&self, occurrence: &Occurrence) -> Option<(Value, usize)> {
        self.values.get(occurrence).copied()
    }

    /// Keeps a value, and tells the number of its entry. None if the occurrence is kept or there is no room.
    pub fn write(&mut self, occurrence: Occurrence, value: Value) -> Option<usize> {
        let number = self.values.len();
        if self.is_full() || self.values.contains_key(&occurrence) {
            return None;
        }
        self.values.insert(occurrence, (value, number));
        let [n0, n1] = occurrence.node.to_le_bytes();
        let code = value.value_type().code();
        self.bytes.extend([n0, n1, occurrence.attribute, code]);
        self.bytes.extend(word(occurrence.parameter));
        self.bytes.extend(word(value));
        Some(number)
    }

    /// How many are kept.
    pub fn count(&self) -> usize {
        self.values.len()
    }

    /// Whether there is no room for more.
    pub fn is_full(&self) -> bool {
        self.values.len() == self.capacity
    }

    /// The entries as a store has them.
    pub fn bytes(&self) -> &[u8] {
        &self.bytes
    }
}

/// The occurrence and the value of an entry of this sheet.
pub fn read_entry(sheet: &Sheet, entry: &[u8]) -> Option<(Occurrence, Value)> {
    let &[n0, n1, attribute, code, ref words @ ..] = entry else {
        return None;
    };
    let (parameter, of) = words.split_first_chunk::<4>()?;
    let nodes = sheet.nodes.len();
    let declared = sheet.attribute(attribute)?;
    let node = u16::from_le_bytes([n0, n1]);
    if usize::from(node) >= nodes || code != declared.result.code() {
        return None;
    }
    let occurrence = Occurrence {
        node,
        attribute,
        parameter: value(declared.parameter, *parameter, nodes)?,
    };
    Some((
        occurrence,
        value(declared.result, of.try_into().ok()?, nodes)?,
    ))
}

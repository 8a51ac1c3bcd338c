//! First stores: new, used, wrong in their values, old, or refused.

use oracle::ask::ask_accepted;
use oracle::sheet::Sheet;
use oracle::store::{entry, Occurrence, ENTRY, MOST_ENTRIES};
use oracle::values::{Base, NULL};

use super::draft::{base_value, Draft};
use super::questions::question;
use super::rng::Rng;

/// A first store for the case with a given number: its bytes and the number kept.
pub fn lent(rng: &mut Rng, number: u64, draft: &Draft, sheet: &Sheet) -> (Vec<u8>, u64) {
    let capacity = capacity(rng, number);
    let mut store = vec![rng.pick(&[0, 0xFF]); capacity * ENTRY];
    if rng.once_in(2) {
        store.fill_with(|| rng.byte());
    }
    if let Some(colliding) = &draft.colliding {
        if rng.once_in(2) {
            let mut kept = colliding.fill(rng, &mut store);
            if rng.once_in(4) {
                kept = corrupt(rng, &mut store, kept);
            }
            return (store, kept);
        }
    }
    let kept = match rng.below(26) {
        0..=14 => 0,
        15 | 16 => used(rng, draft, sheet, &mut store),
        17 => made_up(rng, sheet, &mut store, &Base::ALL),
        18 | 19 => {
            let kept = used(rng, draft, sheet, &mut store);
            make_wrong(rng, sheet, &mut store, kept);
            kept
        }
        20 => {
            let kept = used(rng, draft, sheet, &mut store);
            corrupt(rng, &mut store, kept)
        }
        21 => {
            let kept = made_up(rng, sheet, &mut store, &Base::ALL);
            corrupt(rng, &mut store, kept)
        }
        22 => {
            let length = rng.pick(&[1, 11, 13, 25, 12_287, 12_289, 12_300, 13_000]);
            store.resize(length, 0);
            rng.below(3) as u64
        }
        23 => old_dump(rng, sheet, &mut store, &Base::ALL),
        24 => old_dump(rng, sheet, &mut store, &[Base::Unit]),
        _ => rng.pick(&[capacity as u64 + 1, capacity as u64 + 2, 1_025, u64::MAX]),
    };
    (store, kept)
}

/// A number of entries. Every second case has the next one from 0 to the most; the others lie where more happens.
fn capacity(rng: &mut Rng, number: u64) -> usize {
    if number.is_multiple_of(2) {
        return (number / 2 % (MOST_ENTRIES as u64 + 1)) as usize;
    }
    match rng.below(8) {
        0 => 0,
        1 | 2 => rng.between(1, 5),
        3 => rng.between(6, 20),
        4 => rng.between(60, 130),
        5 => MOST_ENTRIES - 1,
        _ => MOST_ENTRIES,
    }
}

/// Puts earlier questions to a store.
fn used(rng: &mut Rng, draft: &Draft, sheet: &Sheet, store: &mut [u8]) -> u64 {
    let mut kept = 0;
    for _ in 0..rng.between(1, 6) {
        let question = question(rng, draft);
        let budget = rng.pick(&[10, 100, 10_000]);
        kept = ask_accepted(sheet, store, kept, &question, budget).kept as u64;
    }
    kept
}

/// Writes good entries of some types with any values, seldom the right ones.
fn made_up(rng: &mut Rng, sheet: &Sheet, store: &mut [u8], types: &[Base]) -> u64 {
    let nodes = sheet.node_count();
    let attributes: Vec<_> = (0..)
        .zip(sheet.attributes())
        .filter(|(_, declared)| types.contains(&declared.result))
        .collect();
    if nodes == 0 || attributes.is_empty() {
        return 0;
    }
    let mut written = Vec::new();
    let most = rng.between(1, 40);
    for place in store.chunks_exact_mut(ENTRY).take(most) {
        let (attribute, declared) = rng.pick(&attributes);
        let occurrence = Occurrence {
            node: rng.below(nodes) as u16,
            attribute,
            parameter: base_value(rng, declared.parameter, nodes),
        };
        if written.contains(&occurrence) {
            break;
        }
        written.push(occurrence);
        let value = base_value(rng, declared.result, nodes);
        place.copy_from_slice(&entry(occurrence, value));
    }
    written.len() as u64
}

/// Writes entries as they were before they carried a type. Only Units pass.
fn old_dump(rng: &mut Rng, sheet: &Sheet, store: &mut [u8], types: &[Base]) -> u64 {
    let kept = made_up(rng, sheet, store, types);
    for entry in store.chunks_exact_mut(ENTRY).take(kept as usize) {
        entry[3] = 0;
    }
    kept
}

/// Gives some kept entries other values of their types.
fn make_wrong(rng: &mut Rng, sheet: &Sheet, store: &mut [u8], kept: u64) {
    for entry in store.chunks_exact_mut(ENTRY).take(kept as usize) {
        if rng.once_in(2) {
            let declared = sheet.attributes()[usize::from(entry[2])];
            let value = base_value(rng, declared.result, sheet.node_count());
            entry[8..].copy_from_slice(&value.to_bytes());
        }
    }
}

/// Damages a kept entry, repeats one, or counts one more as kept than was written.
fn corrupt(rng: &mut Rng, store: &mut [u8], kept: u64) -> u64 {
    let capacity = store.len() / ENTRY;
    let entries = kept as usize;
    if entries == 0 {
        return capacity.min(1) as u64;
    }
    let at = rng.below(entries) * ENTRY;
    match rng.below(5) {
        0 => store[at + rng.below(ENTRY)] ^= 1 << rng.below(8),
        // another type, or no type's code
        1 => store[at + 3] ^= rng.pick(&[1, 2, 3, 4, 0x80]),
        2 => {
            let field = at + rng.pick(&[0, 4, 8]);
            store[field..field + 2].copy_from_slice(&NULL.to_le_bytes());
        }
        3 if entries < capacity => {
            store.copy_within(at..at + ENTRY, entries * ENTRY);
            return kept + 1;
        }
        _ if entries < capacity => return kept + 1,
        _ => store[at + rng.below(ENTRY)] = rng.byte(),
    }
    kept
}

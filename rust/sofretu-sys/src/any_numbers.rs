//! Calls that answer by their definitions whatever the numbers in their scratch are. `check_store` is held to the C header's words on made-up sheets,
//! stores and numbers; a run, whose index of the open forms is never cleared, is put questions with made-up numbers in its memory.

use std::collections::HashSet;

use crate::{
    ask_in, check_store, Call, CheckedSheet, CheckedStore, Run, RUN, RUN_READ_FIRST, SHEET,
};

/// The code of the type that a byte of the sheet is read as.
fn code(byte: u8) -> u8 {
    byte.min(3)
}

/// Whether four bytes are a value of the type that this byte is read as, where so many nodes are declared.
fn is_word(byte: u8, nodes: u64, word: u32) -> bool {
    match code(byte) {
        0 => word == 0,
        1 => word < 2,
        2 => true,
        _ => u64::from(word) < nodes || word == 65_535,
    }
}

/// What the header says of a store, for any numbers of attributes and nodes.
fn said(sheet: &[u8], attributes: u64, nodes: u64, store: &[u8], kept: u64) -> (u32, u64) {
    if !store.len().is_multiple_of(12) || store.len() > 12_288 || kept > store.len() as u64 / 12 {
        return (9, 0);
    }
    let attributes = attributes.min(sheet.len() as u64 / 3);
    let mut before = HashSet::new();
    for (place, entry) in store.chunks(12).take(kept as usize).enumerate() {
        let node = u16::from_le_bytes([entry[0], entry[1]]);
        let at = 3 * usize::from(entry[2]);
        let word = |from: usize| u32::from_le_bytes(entry[from..from + 4].try_into().unwrap());
        let good = u64::from(node) < nodes
            && u64::from(entry[2]) < attributes
            && entry[3] == code(sheet[at + 1])
            && is_word(sheet[at + 2], nodes, word(4))
            && is_word(sheet[at + 1], nodes, word(8))
            && before.insert((node, entry[2], word(4)));
        if !good {
            return (10, place as u64);
        }
    }
    (0, 0)
}

/// Numbers below a bound, the same ones in every run.
struct Numbers(u64);

impl Numbers {
    fn below(&mut self, bound: u64) -> u64 {
        self.0 = self
            .0
            .wrapping_mul(6_364_136_223_846_793_005)
            .wrapping_add(1_442_695_040_888_963_407);
        (self.0 >> 33) % bound
    }
}

#[test]
fn any_numbers_are_answered_as_the_header_says() {
    let mut numbers = Numbers(9);
    let mut checked_sheet = CheckedSheet::default();
    let mut checked = CheckedStore::default();
    let mut met = [0; 11];
    for _ in 0..40_000 {
        let sheet: Vec<u8> = (0..numbers.below(20))
            .map(|_| numbers.below(5) as u8)
            .collect();
        let entries = numbers.below(4);
        let mut store = Vec::new();
        for _ in 0..entries {
            let value = [numbers.below(3) as u8, 0, 0, 0];
            let attribute = numbers.below(3) as u8;
            let right = sheet.get(3 * usize::from(attribute) + 1).copied();
            let typ = match numbers.below(8) {
                0 => numbers.below(6) as u8,
                _ => code(right.unwrap_or(0)),
            };
            store.extend([numbers.below(2) as u8, 0, attribute, typ]);
            store.extend([numbers.below(2) as u8, 0, 0, 0]);
            store.extend(if numbers.below(8) == 0 {
                [255, 255, 0, 0]
            } else {
                value
            });
        }
        if numbers.below(20) == 0 {
            store.push(0);
        }
        let any = [0, 1, 2, 3, 33, 1_025, u16::MAX / 3, u16::MAX];
        let attributes = any[numbers.below(8) as usize];
        let nodes = any[numbers.below(8) as usize];
        // The last two words are the numbers of attributes and nodes.
        checked_sheet.words[SHEET - 2] = attributes;
        checked_sheet.words[SHEET - 1] = nodes;
        let kept = numbers.below(entries + 2);
        let found = check_store(&sheet, &checked_sheet, &store, kept, &mut checked);
        let expected = said(&sheet, attributes.into(), nodes.into(), &store, kept);
        assert_eq!(
            found, expected,
            "{sheet:?} {attributes} {nodes} {store:?} {kept}"
        );
        met[found.0 as usize] += 1;
    }
    assert!(
        met[0] > 1_000 && met[9] > 1_000 && met[10] > 1_000,
        "{met:?}"
    );
}

/// A rule for kind 0 of attributes with Int parameter: `at_1` where the parameter is 1 or less, and else the same attribute of this node with one less.
fn down(attribute: u8, at_1: &[u8]) -> Vec<u8> {
    let head = [0x20, 0x21, 0x21, 0x14, 0, 0x31, 0x12, 1, 0, 0, 0];
    let one_less = [0x21, 0x21, 0x14, 5, 0x31, 0x12, 1, 0, 0, 0];
    let expr = [&head[..], at_1, &[0x22, attribute, 0x30], &one_less].concat();
    [&[0x52, 0, attribute, expr.len() as u8, 0][..], &expr].concat()
}

#[test]
fn a_run_goes_by_no_number_that_it_did_not_write() {
    // Attribute 0 of k opens k forms and is 1. Attribute 1 opens as many and then asks for that of 40 again. Node 1 forwards to node 0, in a form more.
    let sheet = [
        &[0x41, 2, 2, 0x41, 2, 2, 0x4e, 0, 0x4e, 1][..],
        &down(0, &[0x12, 1, 0, 0, 0]),
        &down(1, &[0x22, 1, 0x30, 0x12, 40, 0, 0, 0]),
        &[0x46, 1, 3, 0, 0x13, 0, 0],
        &[0x5a],
    ]
    .concat();
    let mut sheet_scratch = CheckedSheet::default();
    let mut store_scratch = CheckedStore::default();
    let mut numbers = Numbers(20);
    for fill in 0..300 {
        let mut run = Run::default();
        for (place, word) in run.words.iter_mut().enumerate() {
            *word = match fill {
                0 => 0,
                1 => u64::MAX,
                // Numbers of forms in the cells, numbers of cells in the forms' places.
                _ if place < RUN - 64 => numbers.below(66),
                _ => numbers.below((RUN - RUN_READ_FIRST) as u64),
            };
        }
        // The memory stays as each question leaves it.
        for (node, attribute, k, expected) in [
            (0, 0, 64, [0, 0, 2, 1, 382, 0]),
            (0, 1, 40, [20, 0, 0, 0, 238, 0]),
            (1, 0, 63, [0, 0, 2, 1, 377, 0]),
            (0, 0, 65, [16, 0, 0, 0, 384, 0]),
            (1, 1, 40, [20, 0, 0, 0, 239, 0]),
            (1, 0, 64, [16, 0, 0, 0, 379, 0]),
            (0, 1, 30, [20, 0, 0, 0, 238, 0]),
            (0, 0, 64, [0, 0, 2, 1, 382, 0]),
        ] {
            let call = Call {
                sheet: &sheet,
                question: &[0x22, attribute, 0x13, node, 0, 0x12, k, 0, 0, 0],
                store: &mut [],
                kept: 0,
                budget: 1_000_000,
            };
            let answer = ask_in(
                call,
                &mut sheet_scratch,
                &mut store_scratch,
                &mut run,
                &mut [0; 34],
            );
            assert_eq!(answer, expected, "{fill} {node} {attribute} {k}");
        }
    }
}

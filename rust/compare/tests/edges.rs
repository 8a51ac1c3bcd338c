//! The proved calls at the edges of their input, against the second evaluator.

use std::cell::RefCell;

use compare::Ways;
use trials::write::{d, entry, node_literal, of, sheet_l, sheet_lf, DIAL, NODE_TYPE, UNIT, UP};
use trials::{Ask, Case, Oracle};

thread_local! {
    /// Made once for all calls of a test: every list finds its scratch as it would in one made for it.
    static WAYS: RefCell<Ways> = RefCell::default();
}

/// The stop from 1 to 13 that both say of a call, or none. All else of their answers, and the store, must be the same too.
fn verdict(
    sheet: &[u8],
    question: &[u8],
    store: &[u8],
    kept: u64,
    budget: u64,
) -> Option<(i64, i64)> {
    let case = Case {
        sheet: sheet.to_vec(),
        store: store.to_vec(),
        kept,
        asks: vec![Ask {
            budget,
            question: question.to_vec(),
        }],
    };
    if let Err(differs) = WAYS.with_borrow_mut(|ways| ways.agree(&case)) {
        panic!("{differs}\n{}", case.answered(&mut Oracle::default()));
    }
    let answer = case.answered(&mut Oracle::default()).answers[0];
    (1..=13)
        .contains(&answer.number)
        .then_some((answer.number, answer.place))
}

fn of_sheet(sheet: &[u8]) -> Option<(i64, i64)> {
    verdict(sheet, &[0x10], &[], 0, 0)
}

/// So many nodes and attributes, each pair with a figure that is Unit.
fn grid(attributes: u16, nodes: u16) -> Vec<u8> {
    let mut sheet = Vec::new();
    for _ in 0..attributes {
        sheet.extend([0x41, 0, 0]);
    }
    for _ in 0..nodes {
        sheet.extend([0x4E, 0]);
    }
    for a in 0..attributes.min(32) {
        sheet.extend([0x52, 0, a as u8, 1, 0, 0x10]);
    }
    sheet.push(0x5A);
    sheet
}

#[test]
fn sheet_l_whole_cut_and_too_long() {
    let sheet = sheet_l();
    assert_eq!(sheet.len(), 103);
    assert_eq!(of_sheet(&sheet), None);
    for length in 0..sheet.len() {
        assert!(matches!(of_sheet(&sheet[..length]), Some((2, _))));
    }
    assert_eq!(of_sheet(&[]), Some((2, 0)));
    assert_eq!(of_sheet(&[0x5A]), None);
    for extra in [0x5A, 0x41, 0] {
        let longer: Vec<u8> = sheet.iter().copied().chain([extra]).collect();
        assert_eq!(of_sheet(&longer), Some((2, 103)));
    }
}

#[test]
fn every_single_byte_of_sheets_l_and_lf_changed() {
    let dial_3 = of(&node_literal(3), DIAL, &UNIT);
    for (sheet, question) in [(sheet_l(), d()), (sheet_lf(), dial_3)] {
        for at in 0..sheet.len() {
            for byte in 0..=255 {
                let mut changed = sheet.clone();
                changed[at] = byte;
                verdict(&changed, &question, &[0; 24], 0, 12);
            }
        }
    }
}

#[test]
fn sheets_at_their_limits() {
    assert_eq!(of_sheet(&grid(32, 1024)), None);
    assert_eq!(of_sheet(&grid(33, 1)), Some((3, 96)));
    assert_eq!(of_sheet(&grid(1, 1025)), Some((3, 3 + 2048)));
    for length in [65_535, 65_536, 65_537] {
        let mut sheet = vec![0x41, 0, 0, 0x4E, 0, 0x56, 0, 0, 0, 0, 0, 0, 0];
        sheet.resize(length - 1, 0x5A);
        sheet.push(0x5A);
        let expected = if length > 65_536 { (1, 0) } else { (2, 14) };
        assert_eq!(of_sheet(&sheet), Some(expected));
    }
}

#[test]
fn operands_at_both_ends() {
    // One attribute of each type, with a figure of each four bytes that matter.
    for kind in 0..4 {
        for word in [
            0,
            1,
            2,
            0x7FFF_FFFF,
            0x8000_0000,
            0xFFFF_FFFF,
            0xFFFE,
            0xFFFF,
            0x1_0000u32,
        ] {
            let mut sheet = vec![0x41, kind, 0, 0x4E, 15, 0x56, 0, 0, 0];
            sheet.extend(word.to_le_bytes());
            sheet.push(0x5A);
            of_sheet(&sheet);
        }
    }
    // Node operands 0, 1, 1,023, 1,024 and null, of one declared node; attribute operands 0, 31, 32 and 255.
    for node in [0u16, 1, 1023, 1024, 65_535] {
        for attribute in [0, 31, 32, 255] {
            let mut sheet = vec![0x41, 0, 0, 0x4E, 0, 0x56];
            sheet.extend(node.to_le_bytes());
            sheet.extend([attribute, 0, 0, 0, 0, 0x5A]);
            let expected = (node, attribute) != (0, 0);
            assert_eq!(of_sheet(&sheet), expected.then_some((4, 5)));
            let question = [0x22, attribute, 0x13, node as u8, (node >> 8) as u8, 0x10];
            verdict(&grid(1, 1), &question, &[], 0, 0);
        }
    }
}

#[test]
fn lengths_of_rules_and_forwards() {
    for (command, head) in [(&[0x52, 0, 0][..], 0x10), (&[0x46, 0], 0x30)] {
        for length in [0u16, 1, 255, 256, 257, 65_535] {
            for present in [0usize, 1, 2, 256, 257, 300] {
                let mut sheet = [&[0x41, 0, 0, 0x4E, 0], command].concat();
                sheet.extend(length.to_le_bytes());
                sheet.resize(sheet.len() + present, head);
                sheet.push(0x5A);
                of_sheet(&sheet);
            }
        }
    }
}

#[test]
fn forwards_of_every_kind() {
    // Kinds from 16 on are none. A second forward of a kind is one too many.
    for kind in 0..=255 {
        let forward = [0x46, kind, 1, 0, 0x30];
        let once = [&[0x41, 0, 0, 0x4E, 15], &forward[..], &[0x5A]].concat();
        let expected = match kind {
            15 => None,
            0..15 => Some((8, 0)),
            _ => Some((4, 5)),
        };
        assert_eq!(of_sheet(&once), expected, "{kind}");
        let twice = [&[0x41, 0, 0, 0x4E, 15], &forward[..], &forward, &[0x5A]].concat();
        let expected = if kind < 16 { (5, 10) } else { (4, 5) };
        assert_eq!(of_sheet(&twice), Some(expected), "{kind}");
    }
}

#[test]
fn questions_and_stores_at_their_limits() {
    let sheet = sheet_l();
    for length in [0, 1, 255, 256, 257, 1000] {
        let mut question = vec![0x20; length];
        question
            .iter_mut()
            .rev()
            .take(3)
            .for_each(|byte| *byte = 0x10);
        assert_eq!(verdict(&sheet, &question, &[], 0, 0).is_none(), length == 1);
    }
    // le, le(4), and le(4)(4): the first two are of function type.
    let le4 = [0x21, 0x14, 0, 0x12, 4, 0, 0, 0];
    assert_eq!(verdict(&sheet, &le4[1..3], &[], 0, 0), Some((13, 0)));
    assert_eq!(verdict(&sheet, &le4, &[], 0, 0), Some((13, 0)));
    for budget in [0, 999_999, 1_000_000, 1_000_001, u64::MAX] {
        let expected = (budget > 1_000_000).then_some((11, 0));
        assert_eq!(verdict(&sheet, &d(), &[], 0, budget), expected);
    }
    for length in [0, 11, 12, 13, 12_276, 12_288, 12_289, 12_300] {
        for kept in [0, 1, 2, 1023, 1024, 1025, u64::MAX] {
            verdict(&sheet, &d(), &vec![0; length], kept, 0);
        }
    }
    // A full store of one entry again and again: the second is a duplicate. Without its type, the first is refused.
    let full = entry(0, UP, NODE_TYPE, 0, 0).repeat(1_024);
    assert_eq!(verdict(&sheet, &d(), &full, 1, 0), None);
    assert_eq!(verdict(&sheet, &d(), &full, 1024, 0), Some((10, 1)));
    assert_eq!(verdict(&sheet, &d(), &[0; 12_288], 1024, 0), Some((10, 0)));
}

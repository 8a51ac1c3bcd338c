//! The keys of the generated lists in the library's own index: those that are meant to collide do, and each lies where
//! `calls::index` has it.

use std::ops::Range;

use sofretu::ENTRY;
use sofretu_sys::{check_sheet, check_store, CheckedSheet, CheckedStore, Place};
use trials::collide::{depths, Key, LONGEST_PATH};
use trials::write::{attribute, end, entry, node, rule, INT_TYPE, PARAMETER};
use trials::{generate, Case, Oracle};

/// Where the library has the kept entries of a store, if it accepts the store.
fn places(sheet: &[u8], store: &[u8], kept: u64) -> Option<Vec<Place>> {
    let mut checked_sheet = CheckedSheet::default();
    let mut checked = CheckedStore::default();
    let accepted = check_sheet(sheet, &mut checked_sheet).0 == 0
        && check_store(sheet, &checked_sheet, store, kept, &mut checked).0 == 0;
    accepted.then(|| checked.places(kept as usize))
}

/// Where `calls::index` has the kept entries of a store.
fn expected(store: &[u8], kept: usize) -> Vec<Place> {
    let entries = store.as_chunks::<ENTRY>().0.iter().take(kept);
    let key = |entry: &[u8; ENTRY]| Key {
        node: u16::from_le_bytes([entry[0], entry[1]]),
        attribute: entry[2],
        word: u32::from_le_bytes([entry[4], entry[5], entry[6], entry[7]]),
    };
    let keys: Vec<Key> = entries.map(key).collect();
    let place = |(key, depth): (&Key, usize)| Place {
        bucket: key.bucket(),
        depth,
    };
    keys.iter().zip(depths(&keys)).map(place).collect()
}

/// How many entries the fullest bucket has, and the longest path.
fn collisions(places: &[Place]) -> (usize, usize) {
    let mut sizes = [0; 1_024];
    for place in places {
        sizes[place.bucket] += 1;
    }
    let longest = places.iter().map(|place| place.depth).max();
    (sizes.into_iter().max().unwrap_or(0), longest.unwrap_or(0))
}

#[test]
fn keys_collide_by_questions_and_in_lent_stores() {
    // Of a thousand lists one or so fills a bucket by its questions.
    let cases: Vec<Case> = (0..6_000).map(|number| generate::case(6, number)).collect();
    let lent = cases.iter().filter_map(|case| {
        let places = places(&case.sheet, &case.store, case.kept)?;
        Some(collisions(&places))
    });
    let left = cases
        .iter()
        .filter(|case| case.kept == 0)
        .filter_map(|case| {
            let listed = case.clone().answered(&mut Oracle::default());
            let places = places(&case.sheet, &listed.store, listed.kept)?;
            Some(collisions(&places))
        });
    for stores in [lent.collect::<Vec<_>>(), left.collect()] {
        let with = |least: usize, paths: Range<usize>| {
            stores
                .iter()
                .any(|(fullest, longest)| *fullest >= least && paths.contains(longest))
        };
        assert!(with(100, 1..LONGEST_PATH - 1), "one bucket");
        assert!(with(200, 1..LONGEST_PATH + 1), "a full bucket");
        assert!(with(1, LONGEST_PATH..LONGEST_PATH + 1), "one path");
        assert!(!with(1, LONGEST_PATH + 1..usize::MAX), "a longer path");
    }
}

#[test]
fn every_key_lies_where_the_rust_crates_have_it() {
    let mut seen = 0;
    for case in (0..2_000).map(|number| generate::case(6, number)) {
        if let Some(places) = places(&case.sheet, &case.store, case.kept) {
            seen += places.len();
            assert_eq!(places, expected(&case.store, places.len()));
        }
    }
    assert!(seen > 10_000, "{seen} entries");
}

/// The bucket leaves out the lowest 22 bits of a sum. For attribute 1 and the parameters below 2^22 these bits are every number once, so that
/// some key has another bucket where a factor of the sum differs by one.
#[test]
fn the_buckets_are_the_same_to_the_last_bit() {
    let sheet = [
        attribute(2, 2).repeat(2),
        node(0),
        rule(0, 0, &PARAMETER),
        rule(0, 1, &PARAMETER),
        end(),
    ];
    let sheet = sheet.concat();
    for first in (0..1 << 22).step_by(1_024) {
        let parameters = first..first + 1_024;
        let store: Vec<u8> = parameters
            .flat_map(|parameter| entry(0, 1, INT_TYPE, parameter, 0))
            .collect();
        let places = places(&sheet, &store, 1_024).expect("a store of the sheet");
        assert_eq!(places, expected(&store, 1_024));
    }
}

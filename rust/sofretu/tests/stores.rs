//! Stores: what opens a session, and what is read of a store without its sheet.

use sofretu::{Entry, Origin, Refusal, Session, Sheet, Stop, Store, Value, MOST_ENTRIES};

/// One Int attribute without parameter on one node, with a figure.
const FIGURE: [u8; 14] = [0x41, 2, 0, 0x4E, 0, 0x56, 0, 0, 0, 7, 0, 0, 0, 0x5A];

/// The stores whose length or number kept is none.
fn misshapen() -> [Store; 5] {
    [
        Store::with_capacity(MOST_ENTRIES + 1),
        Store::with_capacity(usize::MAX),
        Store::from_parts(vec![0; 13], 1),
        Store::from_parts(vec![0; 12], 2),
        Store::from_parts(vec![0; 12], u64::MAX),
    ]
}

/// An entry's node, attribute, parameter and value.
fn parts(entry: Result<Entry, Refusal>) -> Result<(u16, u8, u32, Value), Refusal> {
    entry.map(|entry| (entry.node, entry.attribute, entry.parameter, entry.value))
}

#[test]
fn a_store_that_opens_no_session_is_given_back() {
    let sheet = Sheet::check(&FIGURE).expect("an accepted sheet");
    let entry = [0, 0, 0, 2, 0, 0, 0, 0, 0, 0, 0, 0];
    let refused = [
        (
            Store::from_parts(entry.repeat(2), 2),
            Stop::StoreEntry.at(1),
        ),
        (Store::from_parts(vec![0; 12], 1), Stop::StoreEntry.at(0)),
    ];
    let misshapen = misshapen().map(|store| (store, Stop::StoreShape.at(0)));
    for (mut store, refusal) in refused.into_iter().chain(misshapen) {
        let lent = store.clone();
        let unopened = Session::open(&sheet, &mut store).expect_err("a refused store");
        assert_eq!(unopened.refusal, refusal);
        assert_eq!(unopened.refusal.stop.origin(), Origin::Lender);
        assert_eq!(unopened.to_string(), refusal.to_string());
        assert_eq!(*unopened.store, lent);
        let unopened = Session::open(&sheet, store).expect_err("a refused store");
        assert_eq!((unopened.refusal, unopened.store), (refusal, lent));
    }
}

#[test]
fn no_capacity_takes_more_memory_than_the_first_that_is_refused() {
    for (entries, capacity) in [
        (0, 0),
        (1, 1),
        (MOST_ENTRIES, MOST_ENTRIES),
        (MOST_ENTRIES + 1, MOST_ENTRIES + 1),
        (MOST_ENTRIES + 2, MOST_ENTRIES + 1),
        (usize::MAX / 12, MOST_ENTRIES + 1),
        (usize::MAX, MOST_ENTRIES + 1),
    ] {
        let store = Store::with_capacity(entries);
        assert_eq!((store.capacity(), store.kept()), (capacity, 0), "{entries}");
    }
}

#[test]
fn a_store_is_read_without_its_sheet() {
    let sheet = Sheet::check(&FIGURE).expect("an accepted sheet");
    let mut session = Session::open(&sheet, Store::with_capacity(3)).expect("an empty store");
    let answer = session.ask(&[0x22, 0, 0x13, 0, 0, 0x10], 9);
    assert_eq!(answer.value, Ok(Value::Int(7)));
    let store = session.into_store();
    assert!(store
        .entries()
        .map(parts)
        .eq([Ok((0, 0, 0, Value::Int(7)))]));
    assert_eq!(Store::default().entries().count(), 0);
}

#[test]
fn entries_have_values_of_every_type_or_are_refused() {
    let entry = |code: u8, value: u32| {
        let mut bytes = vec![1, 2, 3, code, 4, 5, 6, 7];
        bytes.extend(value.to_le_bytes());
        bytes
    };
    let good = [
        (0, 0, Value::Unit),
        (1, 0, Value::Bool(false)),
        (1, 1, Value::Bool(true)),
        (2, 700, Value::Int(700)),
        (2, i32::MIN as u32, Value::Int(i32::MIN)),
        (2, u32::MAX, Value::Int(-1)),
        (3, 1_023, Value::Node(Some(1_023))),
        (3, 65_535, Value::Node(None)),
    ];
    let bad = [
        (0, 1),
        (1, 2),
        (3, 1_024),
        (3, 65_534),
        (3, 65_536),
        (4, 0),
        (255, 0),
    ];
    let bytes = good.map(|(code, value, _)| entry(code, value)).concat();
    let read = good.map(|(.., value)| Ok((0x0201, 3, 0x0706_0504, value)));
    let store = Store::from_parts(bytes.clone(), good.len() as u64);
    assert!(store.entries().map(parts).eq(read));
    // A bad entry is refused with its number, and the one after it is read.
    for (code, value) in bad {
        let bytes = [&bytes[..12], &entry(code, value), &bytes[12..24]].concat();
        let store = Store::from_parts(bytes, 3);
        let refused = [read[0], Err(Stop::StoreEntry.at(1)), read[1]];
        assert!(store.entries().map(parts).eq(refused));
    }
}

#[test]
fn the_entries_of_a_store_of_the_wrong_shape_are_one_refusal() {
    for store in misshapen() {
        assert!(store.entries().eq([Err(Stop::StoreShape.at(0))]));
    }
}

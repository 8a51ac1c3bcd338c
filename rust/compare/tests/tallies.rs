//! What a tally held before the call is not in it afterwards: the C calls are lent tallies that are full, by every list.

use sofretu_sys::{check_sheet, check_store, CheckedSheet, CheckedStore, Rows, Run};
use trials::case::read_lists;
use trials::{compare, generate, Answer, Call, Case, Oracle};

/// What a tally is lent with.
const FULL: [Rows; 2] = [[1; 34], [u64::MAX; 34]];

/// The calls of the library that take a tally.
struct Calls {
    sheet: CheckedSheet,
    store: CheckedStore,
    run: Run,
}

impl Calls {
    fn new() -> Calls {
        Calls {
            sheet: CheckedSheet::default(),
            store: CheckedStore::default(),
            run: Run::default(),
        }
    }

    /// `sofretu_ask`.
    fn cleared(&mut self, call: Call, tally: &mut Rows) -> Answer {
        // SAFETY: the tests' threads have 2 MB of stack, of which little is used.
        let fields = unsafe { sofretu_sys::ask_cleared(call, tally) };
        Answer::new(fields, *tally)
    }

    /// `sofretu_ask_in`.
    fn lent(&mut self, call: Call, tally: &mut Rows) -> Answer {
        let Calls { sheet, store, run } = self;
        let fields = sofretu_sys::ask_in(call, sheet, store, run, tally);
        Answer::new(fields, *tally)
    }

    /// `sofretu_ask_checked`, where sheet and store are accepted; else `sofretu_ask_in`.
    fn checked(&mut self, call: Call, tally: &mut Rows) -> Answer {
        let Calls { sheet, store, run } = self;
        let accepted = check_sheet(call.sheet, sheet).0 == 0
            && check_store(call.sheet, sheet, call.store, call.kept, store).0 == 0;
        if !accepted {
            return self.lent(call, tally);
        }
        // SAFETY: both checks have accepted what the call lends, just now.
        let fields = unsafe { sofretu_sys::ask_checked(call, sheet, store, run, tally) };
        Answer::new(fields, *tally)
    }
}

/// A list put to each of the calls with each of the full tallies, against the second evaluator.
fn agrees(calls: &mut Calls, case: &Case) {
    type Way = fn(&mut Calls, Call, &mut Rows) -> Answer;
    let ways: [(&str, Way); 3] = [
        ("sofretu_ask", Calls::cleared),
        ("sofretu_ask_in", Calls::lent),
        ("sofretu_ask_checked", Calls::checked),
    ];
    for (name, way) in ways {
        for full in FULL {
            let mut engine = |call: Call| way(calls, call, &mut full.clone());
            if let Err(mismatch) = compare(&mut engine, case) {
                let listed = case.clone().answered(&mut Oracle::default());
                panic!("{name}: {mismatch}\n{listed}");
            }
        }
    }
}

#[test]
fn the_vectors_find_full_tallies_filled_anew() {
    let text = include_str!("../../../tests/vectors/lists.txt");
    let mut calls = Calls::new();
    for listed in read_lists(text).expect("their form") {
        agrees(&mut calls, &listed.case);
    }
}

#[test]
fn generated_lists_find_full_tallies_filled_anew() {
    let mut calls = Calls::new();
    for number in 0..200 {
        agrees(&mut calls, &generate::case(13, number));
    }
}

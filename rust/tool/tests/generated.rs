//! Sheets and lists of the vectors and of the generator, listed and explained.

mod held;

use std::thread;

use held::{explained, listed, verdict};
use trials::case::read_lists;
use trials::generate::case;
use trials::write::sheet_lf;

#[test]
fn the_vectors_are_listed_and_explained() {
    let lists = read_lists(include_str!("../../../tests/vectors/lists.txt")).expect("their form");
    let (mut refused, mut endings) = ([0; 9], [0; 21]);
    for list in &lists {
        let listing = listed(&list.case.sheet);
        explained(&list.case, &listing, &mut endings);
        for answer in list.answers.iter().filter(|answer| answer.number < 9) {
            refused[answer.number as usize] += 1;
            let found = verdict(&list.case.sheet);
            let found = found.map_or_else(
                |refusal| [refusal.stop.number().into(), refusal.place],
                |()| [0, 0],
            );
            assert_eq!(found, [answer.number as u64, answer.place as u64]);
        }
    }
    assert!((1..9).all(|stop| refused[stop] > 0), "{refused:?}");
    assert!(
        [0, 11, 12, 13, 14, 15, 16, 17, 20]
            .iter()
            .all(|stop| endings[*stop] > 0),
        "{endings:?}"
    );
}

/// Half of the generated lists: the even ones, or the odd ones. All their sheets are listed; every second list is explained.
fn half(first: u64) -> ([u64; 9], [u64; 21]) {
    let (mut sheets, mut endings) = ([0; 9], [0; 21]);
    for number in (first..10_000).step_by(2) {
        let case = case(21, number);
        let listing = listed(&case.sheet);
        if number / 2 % 2 == 0 {
            explained(&case, &listing, &mut endings);
        }
        let stop = verdict(&case.sheet)
            .err()
            .map_or(0, |refusal| refusal.stop.number());
        sheets[stop as usize] += 1;
    }
    (sheets, endings)
}

#[test]
fn ten_thousand_generated_sheets_are_listed_and_their_lists_explained() {
    let (even, odd) = thread::scope(|scope| {
        let odd = scope.spawn(|| half(1));
        (half(0), odd.join().expect("a half"))
    });
    let met = |stop: usize| even.0[stop] + odd.0[stop];
    assert!((0..9).all(|stop| met(stop) > 0), "{even:?} {odd:?}");
    let met = |stop: &usize| even.1[*stop] + odd.1[*stop] > 100;
    assert!(
        [0, 11, 12, 13, 14, 15, 16, 17, 20].iter().all(met),
        "{even:?} {odd:?}"
    );
}

#[test]
fn any_cut_and_any_changed_byte_of_sheet_lf_is_listed() {
    let sheet = sheet_lf();
    for length in 0..sheet.len() {
        listed(&sheet[..length]);
    }
    for at in 0..sheet.len() {
        for byte in 0..=255 {
            let mut changed = sheet.clone();
            changed[at] = byte;
            listed(&changed);
        }
    }
}

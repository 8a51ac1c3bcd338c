//! Made-up cases: sheets, stores, questions and budgets, repeatable from a seed.
//!
//! - `sheets.rs`: whole sheets by family: random ones with and without circles, chains deeper than 64, attributes that call
//!   themselves with smaller parameters, hostile ones (the longest rules, the deepest nesting, the widest fan-out), trees,
//!   and large ones up to every limit and one byte beyond. Those with deep chains come with questions of which one has what another keeps
//!   due inside 64 forms. The attributes that matter have any numbers from 0 to 31, so that their steps are in every row of the tally.
//! - `circles.rs`: sheets and questions with attributes that need themselves, over one attribute or several, one node or many, with the same parameter or
//!   one that changes and comes back; in every place of a rule; inside up to 64 forms and more; and some that a figure or a parameter ends.
//! - `forwards.rs`: sheets and questions with attributes that are forwarded, over chains of several kinds and more than 64 nodes, ways that meet, lead
//!   back or break off on null, with parameters of every type, from kinds with nothing else and from kinds with rules and figures besides; and
//!   forwards put onto one sheet in five of most other families.
//! - `sums.rs`: sheets and questions with sums at both ends of Int and beyond them, due in every place of a rule, and attributes that climb to an
//!   end.
//! - `collisions.rs`: sheets, questions and stores with keys that fall into one bucket of the store's index, and along its longest path.
//! - `faults.rs`: sheets that are damaged byte by byte, mangled command by command, ill typed, ill formed or incomplete, and faults of each kind in a
//!   forward.
//! - `draft.rs`: values, among them Ints at both ends.
//! - `questions.rs` and `writer.rs`: questions of every type and shape, and refused ones, which stand among the others in a list.
//! - `stores.rs`: first stores of every capacity, new, left over from earlier questions, wrong in their values, corrupted or misshapen.
//! - here: the lists, in which questions are put again, and budgets around the steps that each question takes, the depth limit, and both ends.

mod circles;
mod collisions;
mod draft;
mod faults;
mod forwards;
mod questions;
mod rng;
mod sheets;
mod stores;
mod sums;
mod writer;

use oracle::ask::{ask_accepted, MOST_STEPS};
use oracle::sheet::Sheet;

use crate::case::{Ask, Case};
use draft::Draft;
use rng::Rng;

/// A question of more steps than this ends a list, for the sake of time.
const MANY_STEPS: u64 = 100_000;

/// The case with a given number in the run of a given seed.
pub fn case(seed: u64, number: u64) -> Case {
    let rng = &mut Rng::new(seed, number);
    let draft = sheets::draft(rng);
    let sheet = match rng.below(20) {
        0 => faults::mangled(rng, &draft),
        1 => faults::damaged(rng, draft.bytes()),
        2 | 3 => faults::spoilt(rng, draft.clone()).bytes(),
        4 => faults::in_a_forward(rng, draft.clone()),
        _ => draft.bytes(),
    };
    let case = match Sheet::read(&sheet) {
        Ok(read) => accepted(rng, number, &draft, sheet, &read),
        Err(_) => refused(rng, &draft, sheet),
    };
    // A copy has blocks of just the bytes' lengths, so that a memory checker sees a read beyond them.
    case.clone()
}

/// A case whose sheet is accepted. The budgets lie around what each question takes at its place.
fn accepted(rng: &mut Rng, number: u64, draft: &Draft, sheet: Vec<u8>, read: &Sheet) -> Case {
    let (store, kept) = stores::lent(rng, number, draft, read);
    let most_asks = rng.pick(&[1, 4, 8, 8, 8, 30]);
    let mut asks: Vec<Ask> = Vec::new();
    let mut lent = store.clone();
    let mut lent_kept = kept;
    let least_asks = usize::from(!rng.once_in(50));
    for _ in 0..rng.between(least_asks, most_asks) {
        // What was asked before may be kept now.
        let question = match asks.last() {
            Some(last) if rng.once_in(8) => last.question.clone(),
            _ => questions::question(rng, draft),
        };
        let mut probe = lent.clone();
        let steps = ask_accepted(read, &mut probe, lent_kept, &question, MOST_STEPS).steps as u64;
        let budget = budget(rng, steps);
        let answer = ask_accepted(read, &mut lent, lent_kept, &question, budget);
        lent_kept = answer.kept as u64;
        asks.push(Ask { budget, question });
        if steps > MANY_STEPS {
            break;
        }
    }
    Case {
        sheet,
        store,
        kept,
        asks,
    }
}

/// A case whose sheet is refused.
fn refused(rng: &mut Rng, draft: &Draft, sheet: Vec<u8>) -> Case {
    let store: Vec<u8> = (0..rng.below(60)).map(|_| rng.byte()).collect();
    let kept = rng.pick(&[0, 0, 1, 2, 5, u64::MAX]);
    let asks = (0..rng.between(1, 2))
        .map(|_| Ask {
            question: questions::question(rng, draft),
            budget: budget(rng, 5),
        })
        .collect();
    Case {
        sheet,
        store,
        kept,
        asks,
    }
}

/// A budget at or around a boundary, for a question known to take `steps`.
fn budget(rng: &mut Rng, steps: u64) -> u64 {
    match rng.below(20) {
        0..=2 => steps.saturating_sub(1),
        3..=6 => steps,
        7..=9 => steps + 1,
        10 => rng.below(steps as usize + 1) as u64,
        11 => rng.pick(&[0, 1, 2, 3, 63, 64, 65, 66, 127, 128]),
        12 => rng.pick(&[MOST_STEPS + 1, MOST_STEPS + 2, 1 << 32, u64::MAX]),
        13 => MOST_STEPS - 1,
        _ => MOST_STEPS,
    }
}

#[cfg(test)]
mod tests {
    use super::*;
    use crate::compare::Counts;
    use crate::engine::{Lent, Oracle};
    use std::collections::{BTreeMap, BTreeSet};

    #[test]
    fn a_seed_repeats_its_cases() {
        for number in 0..40 {
            let one = case(7, number);
            let other = case(7, number);
            assert_eq!(one, other);
        }
        assert_ne!(case(7, 0), case(8, 0));
    }

    #[test]
    fn budgets_lie_at_the_boundaries() {
        let mut rng = Rng::new(1, 1);
        let drawn: Vec<u64> = (0..2_000).map(|_| budget(&mut rng, 17)).collect();
        for budget in [0, 16, 17, 18, 999_999, 1_000_000, 1_000_001, u64::MAX] {
            assert!(drawn.contains(&budget), "{budget} never drawn");
        }
    }

    #[test]
    fn every_sheet_limit_is_met() {
        let sheets: Vec<Vec<u8>> = (0..1_500).map(|number| case(3, number).sheet).collect();
        let with = |wanted: &dyn Fn(&[u8]) -> bool| sheets.iter().any(|sheet| wanted(sheet));
        assert!(with(
            &|sheet| sheet.len() == 65_536 && Sheet::read(sheet).is_ok()
        ));
        assert!(with(&|sheet| sheet.len() == 65_537));
        assert!(with(&|sheet| Sheet::read(sheet)
            .is_ok_and(
                |sheet| sheet.node_count() == 1_024 && sheet.attributes().len() == 32
            )));
    }

    #[test]
    fn every_row_of_the_tally_is_met_by_values_and_by_the_stops_of_a_run() {
        let mut met: BTreeMap<i64, Counts> = BTreeMap::new();
        for number in 0..1_500 {
            let listed = case(9, number).answered(&mut Oracle::default());
            for answer in &listed.answers {
                met.entry(answer.number).or_default().answer(answer);
            }
        }
        for number in [0, 14, 15] {
            let unmet = met[&number].unmet_rows();
            assert_eq!(unmet, [0; 0], "rows under {number}");
        }
        // Forms go deep by few attributes at a time, and so do circles; sums that do not fit are few.
        for number in [16, 17, 20] {
            let unmet = met[&number].unmet_rows();
            assert!(unmet.len() <= 8, "rows under {number}: {unmet:?}");
            assert!([0, 31, 32, 33].iter().all(|row| !unmet.contains(row)));
        }
        for number in 1..=13 {
            assert_eq!(met[&number].unmet_rows().len(), 34, "rows under {number}");
        }
    }

    /// How often a stop is met.
    #[derive(Debug, Default)]
    struct Met {
        /// With the whole budget used.
        at: usize,
        /// With one step of the budget left.
        next: usize,
        /// With more left.
        later: usize,
        /// As 15, where one step more would bring it.
        before: usize,
        /// With more kept than before the question.
        keeping: usize,
    }

    #[test]
    fn null_overflow_and_circle_are_met_at_and_around_the_step_where_they_are_due() {
        let mut answers = 0;
        let mut met: BTreeMap<i64, Met> = BTreeMap::new();
        let oracle = &mut Oracle::default();
        for number in 0..1_500 {
            let case = case(9, number);
            let mut lent = Lent::first(&case);
            for Ask { question, budget } in &case.asks {
                let before = lent.clone();
                let answer = lent.ask(oracle, &case.sheet, question, *budget);
                answers += 1;
                if answer.number == 15 {
                    let more = before
                        .clone()
                        .ask(oracle, &case.sheet, question, budget + 1);
                    met.entry(more.number).or_default().before += 1;
                    continue;
                }
                let met = met.entry(answer.number).or_default();
                met.keeping += usize::from(lent.kept > before.kept);
                match budget - answer.steps as u64 {
                    0 => met.at += 1,
                    1 => met.next += 1,
                    _ => met.later += 1,
                }
            }
        }
        for number in [14, 17, 20] {
            let met = &met[&number];
            let all = met.at + met.next + met.later;
            let percent = 100 * all / answers;
            assert!((2..10).contains(&percent), "{number}: {percent}");
            for some in [met.at, met.next, met.later, met.before, met.keeping] {
                assert!(20 * some >= all, "{number}: {met:?}");
            }
        }
    }

    /// They show where a question is an attribute of a node, takes one step, and takes more with nothing kept.
    #[test]
    fn kept_occurrences_of_most_attributes_are_met() {
        let mut kept = BTreeSet::new();
        for number in 0..3_000 {
            let case = case(9, number);
            let Ok(sheet) = Sheet::read(&case.sheet) else {
                continue;
            };
            let listed = case.answered(&mut Oracle::default());
            for (ask, answer) in listed.case.asks.iter().zip(&listed.answers) {
                if (answer.number, answer.steps) != (0, 1) || ask.question[0] != 0x22 {
                    continue;
                }
                let alone = ask_accepted(&sheet, &mut [], 0, &ask.question, MOST_STEPS);
                if alone.steps > 1 {
                    let attribute = ask.question[1];
                    assert_eq!(answer.tally[usize::from(attribute)], 1);
                    kept.insert(attribute);
                }
            }
        }
        assert!(kept.len() > 16, "{kept:?}");
        assert!(kept.contains(&0) && kept.contains(&31), "{kept:?}");
    }

    #[test]
    fn lists_start_from_stores_of_every_sort() {
        let cases: Vec<Case> = (0..4_000).map(|number| case(11, number)).collect();
        let with = |wanted: &dyn Fn(&Case) -> bool| cases.iter().any(wanted);
        assert!(with(&|case| case.store.is_empty()));
        assert!(with(&|case| case.store.len() == 12_288 && case.kept == 0));
        assert!(with(&|case| case.store.len() > 12_288));
        assert!(with(&|case| case.store.len() % 12 != 0));
        assert!(with(&|case| case.kept > case.store.len() as u64));
        let full = |case: &Case| {
            let listed = case.clone().answered(&mut Oracle::default());
            case.store.len() == 12_288 && case.kept == 0 && listed.kept == 1_024
        };
        assert!(with(&full));
    }
}

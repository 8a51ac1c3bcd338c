//! Smaller cases with the same failing.

use oracle::ask::MOST_STEPS;
use oracle::store::ENTRY;

use crate::case::Case;
use crate::pieces::{before_expression, commands, parts, LEAVES};

/// How often a smaller case is tried, for the sake of time.
const MOST_ATTEMPTS: usize = 20_000;

/// Drops questions, commands and entries, shortens expressions and the store, and lowers budgets for as long as `fails` still holds.
pub fn shrink(case: Case, fails: impl FnMut(&Case) -> bool) -> Case {
    let mut shrinking = Shrinking {
        best: case,
        fails,
        attempts: 0,
    };
    loop {
        let before = shrinking.best.clone();
        shrinking.drop_questions();
        shrinking.drop_declared(0x4E);
        shrinking.drop_declared(0x41);
        shrinking.drop_commands();
        shrinking.shorten_store();
        shrinking.drop_entries();
        shrinking.shorten_questions();
        shrinking.shorten_rules_and_forwards();
        shrinking.lower_budgets();
        if shrinking.best == before {
            return before;
        }
    }
}

struct Shrinking<F> {
    best: Case,
    fails: F,
    attempts: usize,
}

impl<F: FnMut(&Case) -> bool> Shrinking<F> {
    /// Keeps a change if the case still fails with it.
    fn attempt(&mut self, change: impl FnOnce(&mut Case)) -> bool {
        if self.attempts == MOST_ATTEMPTS {
            return false;
        }
        self.attempts += 1;
        let mut changed = self.best.clone();
        change(&mut changed);
        let better = changed != self.best && (self.fails)(&changed);
        if better {
            self.best = changed;
        }
        better
    }

    /// A question that is dropped no longer spares the others steps, so they are tried with all the budget too.
    fn drop_questions(&mut self) {
        for length in 1..self.best.asks.len() {
            if self.attempt(|case| case.asks.truncate(length)) {
                break;
            }
        }
        for place in (0..self.best.asks.len()).rev() {
            let dropped = self.attempt(|case| drop(case.asks.remove(place)));
            if !dropped {
                self.attempt(|case| {
                    case.asks.remove(place);
                    for ask in &mut case.asks {
                        ask.budget = ask.budget.max(MOST_STEPS);
                    }
                });
            }
        }
    }

    /// Drops the last nodes or attributes, as `command` says, with the figures and rules for them.
    fn drop_declared(&mut self, command: u8) {
        let written = commands(&self.best.sheet);
        let most = written.iter().filter(|each| each[0] == command).count();
        lower(most as u64, |count| {
            let mut declared = 0;
            let keeps = |each: &&Vec<u8>| match (each[0], command) {
                (0x56, 0x4E) if each.len() == 8 => {
                    u64::from(u16::from_le_bytes([each[1], each[2]])) < count
                }
                (0x56, 0x41) if each.len() == 8 => u64::from(each[3]) < count,
                (0x52, 0x41) if each.len() >= 5 => u64::from(each[2]) < count,
                (head, _) if head == command => {
                    declared += 1;
                    declared <= count
                }
                _ => true,
            };
            let left: Vec<Vec<u8>> = written.iter().filter(keeps).cloned().collect();
            self.attempt(|case| case.sheet = left.concat())
        });
    }

    /// Drops runs of commands, shorter and shorter ones.
    fn drop_commands(&mut self) {
        let mut length = commands(&self.best.sheet).len() / 2;
        while length > 0 {
            let mut end = commands(&self.best.sheet).len();
            while end > 0 {
                let start = end.saturating_sub(length);
                self.attempt(|case| {
                    let mut written = commands(&case.sheet);
                    written.drain(start..end);
                    case.sheet = written.concat();
                });
                end = start;
            }
            length /= 2;
        }
    }

    fn shorten_questions(&mut self) {
        for place in 0..self.best.asks.len() {
            let question = self.best.asks[place].question.clone();
            self.shorten(question, |case, shorter| {
                case.asks[place].question = shorter;
            });
        }
    }

    fn shorten_rules_and_forwards(&mut self) {
        for place in 0..commands(&self.best.sheet).len() {
            let written = commands(&self.best.sheet);
            let Some(front) = before_expression(&written[place]) else {
                continue;
            };
            let expression = written[place][front..].to_vec();
            self.shorten(expression, |case, shorter| {
                let mut written = commands(&case.sheet);
                let length = (shorter.len() as u16).to_le_bytes();
                written[place].truncate(front - 2);
                written[place].extend(length);
                written[place].extend(shorter);
                case.sheet = written.concat();
            });
        }
    }

    /// Puts, for a part of an expression, one of its own parts or a leaf, and what comes of it into the case by `put`.
    fn shorten(&mut self, mut expression: Vec<u8>, put: impl Fn(&mut Case, Vec<u8>)) {
        let mut at = 0;
        while at < parts(&expression).len() {
            let (range, inner) = parts(&expression).swap_remove(at);
            let inner = inner.iter().map(|inner| expression[inner.clone()].to_vec());
            let leaves = LEAVES.iter().map(|leaf| leaf.to_vec());
            let smaller = leaves.chain(inner).find_map(|part| {
                if part.len() >= range.len() {
                    return None;
                }
                let mut shorter = expression.clone();
                shorter.splice(range.clone(), part);
                self.attempt(|case| put(case, shorter.clone()))
                    .then_some(shorter)
            });
            match smaller {
                Some(smaller) => expression = smaller,
                None => at += 1,
            }
        }
    }

    fn shorten_store(&mut self) {
        let kept = self.kept();
        let most = (self.best.store.len() / ENTRY - kept) as u64;
        lower(most, |spare| {
            self.attempt(|case| case.store.truncate((kept + spare as usize) * ENTRY))
        });
        self.attempt(|case| case.store[kept * ENTRY..].fill(0));
    }

    fn drop_entries(&mut self) {
        for entry in (0..self.kept()).rev() {
            self.attempt(|case| {
                case.store.drain(entry * ENTRY..(entry + 1) * ENTRY);
                case.kept -= 1;
            });
        }
        lower(self.best.kept, |kept| self.attempt(|case| case.kept = kept));
    }

    fn lower_budgets(&mut self) {
        for place in 0..self.best.asks.len() {
            lower(self.best.asks[place].budget, |budget| {
                self.attempt(|case| case.asks[place].budget = budget)
            });
        }
    }

    /// The kept entries that there is room for.
    fn kept(&self) -> usize {
        let capacity = self.best.store.len() / ENTRY;
        usize::try_from(self.best.kept).map_or(capacity, |kept| kept.min(capacity))
    }
}

/// Lowers a number from `most` by smaller and smaller amounts while `still` accepts what it becomes.
fn lower(most: u64, mut still: impl FnMut(u64) -> bool) {
    let mut number = most;
    let mut amount = most;
    while amount > 0 {
        if amount <= number && still(number - amount) {
            number -= amount;
        } else {
            amount /= 2;
        }
    }
}

#[cfg(test)]
mod tests {
    use super::*;
    use crate::case::Ask;
    use crate::write::*;
    use oracle::sheet::Sheet;

    #[test]
    fn a_failing_case_shrinks_to_what_makes_it_fail() {
        let ask = |budget, byte| Ask {
            budget,
            question: vec![byte],
        };
        let case = Case {
            sheet: vec![0x5A],
            store: vec![7; 50 * ENTRY],
            kept: 9,
            asks: (0..20).map(|byte| ask(1_000_000, byte)).collect(),
        };
        let fails = |case: &Case| {
            case.store.len() >= 3 * ENTRY
                && case.kept >= 2
                && case
                    .asks
                    .iter()
                    .any(|ask| ask.question == [13] && ask.budget >= 77)
        };
        assert!(fails(&case));
        let shrunk = shrink(case, fails);
        let mut store = vec![7; 2 * ENTRY];
        store.resize(3 * ENTRY, 0);
        assert_eq!(
            shrunk,
            Case {
                sheet: vec![0x5A],
                store,
                kept: 2,
                asks: vec![ask(77, 13)],
            }
        );
    }

    #[test]
    fn the_expressions_of_rules_and_forwards_are_shortened() {
        let long = |leaf: &[u8]| if_else(&TRUE, leaf, &NULL);
        let sheet = |long: &dyn Fn(&[u8]) -> Vec<u8>| {
            let parts = [
                attribute(NODE_TYPE, UNIT_TYPE),
                forward(3, &long(&THIS)),
                rule(3, 0, &long(&THIS)),
                end(),
            ];
            parts.concat()
        };
        let case = Case {
            sheet: sheet(&long),
            ..Case::default()
        };
        let fails = |case: &Case| {
            let heads: Vec<u8> = commands(&case.sheet).iter().map(|each| each[0]).collect();
            Sheet::read(&case.sheet).is_ok() && heads == [0x41, 0x46, 0x52, 0x5A]
        };
        assert!(fails(&case));
        assert_eq!(
            shrink(case, fails).sheet,
            sheet(&|leaf: &[u8]| leaf.to_vec())
        );
    }

    #[test]
    fn a_case_that_cannot_be_smaller_stays() {
        let case = Case {
            sheet: Vec::new(),
            store: Vec::new(),
            kept: 0,
            asks: Vec::new(),
        };
        assert_eq!(shrink(case.clone(), |_| true), case);
    }
}

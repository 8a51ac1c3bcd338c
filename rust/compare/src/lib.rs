//! The proved engine compared with the second evaluator: every field and every row of every answer, every byte of the store, and demand 3
//! on the engine's own answers against plain Saiga.
#![forbid(unsafe_code)]

use sofretu::{Refusal, Scratch, Session, Sheet, Stop, Store, MOST_STEPS};
use trials::compare::{compare_check, Counts};
use trials::engine::ask_each;
use trials::write::*;
use trials::{Answer, Ask, Call, Case, Engine};

/// The library's ways to put a question, each an engine.
#[derive(Default)]
pub struct Ways {
    whole: Whole,
    cleared: Cleared,
    lent: Lent,
    session: Sessions,
}

impl Ways {
    /// The engines with the names of the C calls that they put a question by: `sofretu_ask_in` in scratch on the stack, which is not
    /// cleared, and in scratch on the heap, which was used.
    pub fn all(&mut self) -> [(&'static str, &mut dyn Engine); 4] {
        [
            ("sofretu_ask_in on the stack", &mut self.whole),
            ("sofretu_ask", &mut self.cleared),
            ("sofretu_ask_in", &mut self.lent),
            ("sofretu_ask_checked", &mut self.session),
        ]
    }

    /// Puts a list to the oracle and in every way to the library, and to its check alone. The answers are counted once.
    pub fn agree(&mut self, case: &Case) -> Result<Counts, String> {
        let mut counts = Counts::default();
        for (name, engine) in self.all() {
            counts =
                trials::compare(engine, case).map_err(|differs| format!("{name}: {differs}"))?;
        }
        compare_check(check, case).map_err(|differs| format!("sofretu_check: {differs}"))?;
        Ok(counts)
    }

    /// As `agree`, and tries demand 3 in every way, and forwards beside rules in their place. What was tried is counted once.
    pub fn agree_and_keep_demand_3(&mut self, case: &Case) -> Result<Counts, String> {
        let mut counts = self.agree(case)?;
        for (name, engine) in self.all() {
            let tried = trials::demand3(engine, case)
                .map_err(|violation| format!("{name}: {violation}"))?;
            counts.checks = tried.checks;
            let tried =
                trials::as_rules(engine, case).map_err(|differs| format!("{name}: {differs}"))?;
            counts.checks.extend(tried.checks);
        }
        Ok(counts)
    }
}

/// `sofretu_check`, for `compare_check`.
fn check(call: Call) -> Result<(), (i64, i64)> {
    sofretu::check(&call).map_err(|refusal| (refusal.stop.number().into(), refusal.place as i64))
}

/// The library's answer as the second evaluator has answers.
pub fn brought(answer: sofretu::Answer) -> Answer {
    let rows = answer.tally.rows().try_into().expect("34 rows");
    Answer::new(answer.fields(), rows)
}

/// Every question with all its checks and its scratch on the stack.
#[derive(Default)]
struct Whole;

impl Engine for Whole {
    fn ask(&mut self, call: Call) -> Answer {
        brought(sofretu::ask(call))
    }
}

/// The same in scratch that is cleared.
#[derive(Default)]
struct Cleared;

impl Engine for Cleared {
    fn ask(&mut self, call: Call) -> Answer {
        brought(sofretu::ask_cleared(call))
    }
}

/// The same in scratch that every list finds used by one and the same call, so that a list that fails does so again by itself.
struct Lent {
    scratch: Scratch,
    first: Case,
}

impl Default for Lent {
    fn default() -> Lent {
        Lent {
            scratch: Scratch::new(),
            first: filling(),
        }
    }
}

impl Engine for Lent {
    fn ask(&mut self, call: Call) -> Answer {
        brought(self.scratch.ask(call))
    }

    fn list(&mut self, case: &Case, each: &mut dyn FnMut(Answer, &[u8])) {
        let first = self.first.clone();
        ask_each(self, &first, &mut |_, _| {});
        ask_each(self, case, each);
    }
}

/// A call that writes every part of its scratch: the most attributes and nodes, figures and rules for all of them, a forward for each kind, a full
/// store, and an attribute that is itself with one more, which opens as many forms as can be.
fn filling() -> Case {
    const ATTRIBUTES: u8 = 32;
    const NODES: u16 = 1_024;
    const WITH_FIGURES: u8 = 6;
    const LAST: u8 = ATTRIBUTES - 1;
    let mut sheet = attribute(INT_TYPE, UNIT_TYPE).repeat(LAST.into());
    sheet.extend(attribute(INT_TYPE, INT_TYPE));
    for number in 0..NODES {
        sheet.extend(node((number % 16) as u8));
    }
    let mut store = Vec::new();
    for number in 0..NODES {
        for attribute in 0..WITH_FIGURES {
            sheet.extend(figure(number, attribute, 1));
        }
        store.extend(entry(number, 0, INT_TYPE, 0, 1));
    }
    let deeper = of(&THIS, LAST, &binary(ADD, &PARAMETER, &int(1)));
    for kind in 0..16 {
        for attribute in WITH_FIGURES..LAST {
            sheet.extend(rule(kind, attribute, &of(&THIS, attribute, &UNIT)));
        }
        sheet.extend(rule(kind, LAST, &deeper));
        sheet.extend(forward(kind, &THIS));
    }
    sheet.extend(end());
    let question = of(&node_literal(0), LAST, &int(0));
    Case {
        sheet,
        store,
        kept: NODES.into(),
        asks: vec![Ask {
            budget: MOST_STEPS,
            question,
        }],
    }
}

/// One session for all lists, switched to the sheet and the store of each. Every list finds it used by one and the same call.
struct Sessions {
    session: Session,
    first: Case,
    first_sheet: Sheet,
}

impl Default for Sessions {
    fn default() -> Sessions {
        let first = filling();
        let first_sheet = Sheet::load(&*first.sheet).expect("an accepted sheet");
        let session = Session::open(&first_sheet, Store::default()).expect("an empty store");
        Sessions {
            session,
            first,
            first_sheet,
        }
    }
}

impl Sessions {
    /// The session with this sheet and this store, after the call that every list finds it used by.
    fn with(&mut self, sheet: &[u8], store: &[u8], kept: u64) -> Result<&mut Session, Refusal> {
        let Case {
            store: used,
            kept: used_kept,
            asks,
            ..
        } = &self.first;
        let used = Store::from_parts(used.clone(), *used_kept);
        self.session.switch(&self.first_sheet, used)?;
        let answer = self.session.ask(&asks[0].question, asks[0].budget);
        assert_eq!(answer.value, Err(Stop::Depth.at(0)));
        let sheet = Sheet::load(sheet)?;
        let store = Store::from_parts(store.to_vec(), kept);
        self.session.switch(&sheet, store)?;
        Ok(&mut self.session)
    }
}

impl Engine for Sessions {
    fn ask(&mut self, call: Call) -> Answer {
        match self.with(call.sheet, call.store, call.kept) {
            Ok(session) => {
                let answer = session.ask(call.question, call.budget);
                call.store.copy_from_slice(session.store().bytes());
                brought(answer)
            }
            Err(refusal) => refused(refusal, call.kept),
        }
    }

    fn list(&mut self, case: &Case, each: &mut dyn FnMut(Answer, &[u8])) {
        match self.with(&case.sheet, &case.store, case.kept) {
            Ok(session) => {
                for ask in &case.asks {
                    let answer = session.ask(&ask.question, ask.budget);
                    assert_eq!(answer.kept, session.store().kept());
                    each(brought(answer), session.store().bytes());
                }
            }
            Err(refusal) => {
                for _ in &case.asks {
                    each(refused(refusal, case.kept), &case.store);
                }
            }
        }
    }
}

/// The answer to a question whose sheet or store is refused.
fn refused(refusal: Refusal, kept: u64) -> Answer {
    let number = refusal.stop.number().into();
    let fields = [number, refusal.place as i64, 0, 0, 0, kept as i64];
    Answer::new(fields, [0; 34])
}

#[cfg(test)]
mod tests {
    use super::*;

    #[test]
    fn the_call_that_fills_scratch_is_accepted_and_goes_deep() {
        let listed = filling().answered(&mut trials::Oracle::default());
        let answer = listed.answers[0];
        assert_eq!((answer.number, answer.kept), (16, 1_024));
        assert_eq!(answer.steps, 3 * 64);
    }
}

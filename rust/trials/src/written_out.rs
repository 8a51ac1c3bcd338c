//! A sheet with forwards beside the same sheet with rules in their place (document 02, F-7): "σ(n, a, v) is attribute a of f with parameter v, all by
//! the ordinary steps", and so it is what a rule would say that is attribute a of f with the parameter. Every answer and every byte of the store is
//! the same.

use oracle::expr::LONGEST;
use oracle::sheet::{Sheet, LONGEST_SHEET};

use crate::case::Case;
use crate::compare::{shown, Counts};
use crate::engine::Engine;
use crate::pieces::{before_expression, commands};
use crate::write::{of, rule, PARAMETER};

/// What is checked, as it is named in counts.
pub const AS_RULES: &str = "forwards as rules";

/// An accepted sheet with rules in the place of its forwards. A forward too long for that stays, and none is written out where the sheet would be too
/// long. None, where that changes nothing.
pub fn written_out(sheet: &[u8]) -> Option<Vec<u8>> {
    let attributes = Sheet::read(sheet).ok()?.attributes().len() as u8;
    let written = commands(sheet);
    let has_rule = |kind: u8, attribute: u8| {
        let mut heads = written.iter().map(|command| command.get(..3));
        heads.any(|head| head == Some(&[0x52, kind, attribute]))
    };
    let mut out = Vec::new();
    for command in &written {
        let forwarded = match command[..] {
            [0x46, kind, ..] => {
                let f = &command[before_expression(command)?..];
                let rule_of = |attribute| (attribute, of(f, attribute, &PARAMETER));
                (f.len() + 3 <= LONGEST).then(|| {
                    let attributes = 0..attributes;
                    let rules = attributes.filter(|attribute| !has_rule(kind, *attribute));
                    let commands = rules.map(rule_of).map(|(a, expr)| rule(kind, a, &expr));
                    commands.flatten().collect()
                })
            }
            _ => None,
        };
        out.extend(forwarded.unwrap_or_else(|| command.clone()));
    }
    (out.len() <= LONGEST_SHEET && out != sheet).then_some(out)
}

/// Puts a list to an engine, with its sheet as it is and written out, where it is accepted and has forwards that can be.
pub fn as_rules<E: Engine + ?Sized>(engine: &mut E, case: &Case) -> Result<Counts, String> {
    let mut counts = Counts::default();
    let Some(sheet) = written_out(&case.sheet) else {
        return Ok(counts);
    };
    if let Err(stop) = Sheet::read(&sheet) {
        return Err(format!("{AS_RULES}: {stop:?} of the sheet written out"));
    }
    let rules = Case {
        sheet,
        ..case.clone()
    };
    let mut by_rules = Vec::new();
    engine.list(&rules, &mut |answer, store| {
        by_rules.push((answer, store.to_vec()));
    });
    let mut by_rules = by_rules.into_iter().enumerate();
    let mut differs = None;
    engine.list(case, &mut |answer, store| {
        let (question, (ruled, left)) = by_rules.next().expect("an answer to each question");
        counts.check(AS_RULES);
        if differs.is_none() && (answer != ruled || store != left) {
            let stores = if store == left { "alike" } else { "different" };
            differs = Some(format!(
                "{AS_RULES}, question {question}: forwards bring {}, rules {}, stores left {stores}",
                shown(&answer),
                shown(&ruled)
            ));
        }
    });
    match differs {
        Some(differs) => Err(differs),
        None => Ok(counts),
    }
}

#[cfg(test)]
mod tests {
    use super::*;
    use crate::case::Ask;
    use crate::engine::Oracle;
    use crate::write::*;
    use crate::{Answer, Call};

    #[test]
    fn sheet_lf_written_out() {
        let up = this_up();
        let rules = [UP, OWN, DIAL].map(|a| rule(2, a, &of(&up, a, &PARAMETER)));
        let expected = l_with(&node(2), &figure(3, UP, 1), &rules.concat());
        assert_eq!(written_out(&sheet_lf()), Some(expected.clone()));
        assert_eq!(written_out(&expected), None);
        // What has a rule is not written twice, and a refused sheet not at all.
        let dialled = [forward(2, &up), rule(2, DIAL, &int(5))].concat();
        let expected = [rules[..2].concat(), rule(2, DIAL, &int(5))].concat();
        let with = |rules: &[u8]| l_with(&node(2), &figure(3, UP, 1), rules);
        assert_eq!(written_out(&with(&dialled)), Some(with(&expected)));
        assert_eq!(written_out(&with(&forward(16, &up))), None);
    }

    #[test]
    fn a_forward_is_written_out_up_to_253_bytes() {
        // A Node expression of 4 × ifs + 1 bytes and, with a not, of two more.
        let long = |ifs, condition: &[u8]| {
            let inner = (1..ifs).fold(THIS.to_vec(), |inner, _| if_else(&TRUE, &inner, &THIS));
            if_else(condition, &inner, &THIS)
        };
        for (expr, fits) in [
            (long(63, &TRUE), true),
            (
                long(62, &apply(&function(NOT), &binary(2, &THIS, &THIS))),
                false,
            ),
        ] {
            assert_eq!(expr.len() <= 253, fits);
            let sheet = [attribute(INT_TYPE, UNIT_TYPE), forward(0, &expr), end()].concat();
            assert!(Sheet::read(&sheet).is_ok());
            assert_eq!(written_out(&sheet).is_some(), fits, "{}", expr.len());
        }
    }

    /// Node 3's own and dial, two questions.
    fn case() -> Case {
        let ask = |attribute| Ask {
            budget: 1_000,
            question: of(&node_literal(3), attribute, &UNIT),
        };
        Case {
            sheet: sheet_lf(),
            store: vec![0; 12 * 5],
            kept: 0,
            asks: [OWN, DIAL].map(ask).into(),
        }
    }

    #[test]
    fn the_oracle_passes_and_an_engine_that_spares_a_forwards_step_does_not() {
        let counts = as_rules(&mut Oracle::default(), &case()).expect("no difference");
        assert_eq!(counts.checks[AS_RULES], 2);
        let mut sparing = |call: Call| {
            let forwarded = commands(call.sheet).iter().any(|each| each[0] == 0x46);
            let answer = crate::Engine::ask(&mut Oracle::default(), call);
            Answer {
                steps: answer.steps - i64::from(forwarded),
                ..answer
            }
        };
        assert!(as_rules(&mut sparing, &case()).is_err());
    }
}

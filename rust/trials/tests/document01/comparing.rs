//! Engines with planted faults, and which check finds them.

use std::slice::from_ref;

use crate::common::*;
use trials::case::{read_lists, Ask, Case};
use trials::shrink::shrink;
use trials::soak::soak;
use trials::{compare, demand3, Answer, Call, Oracle};

fn case(capacity: usize, questions: &[Vec<u8>]) -> Case {
    Case {
        sheet: sheet_l(),
        store: vec![0; capacity * 12],
        kept: 0,
        asks: questions
            .iter()
            .map(|question| Ask {
                budget: MOST,
                question: question.clone(),
            })
            .collect(),
    }
}

/// D, D, node 2's dial, L10, a refused question, Int 5.
fn l_case(capacity: usize) -> Case {
    let dial = of(&node_literal(2), DIAL, &UNIT);
    case(capacity, &[d(), d(), dial, l10(), vec![0x30], int(5)])
}

/// An answer with all its steps in the first row.
fn brought(fields: [i64; 6]) -> Answer {
    let mut tally = [0; 34];
    tally[0] = fields[4] as u64;
    Answer::new(fields, tally)
}

/// Whether `compare` and `demand3` let an engine by on a list.
fn let_by_on(case: &Case, mut engine: impl FnMut(Call) -> Answer) -> (bool, Option<&'static str>) {
    let compared = compare(&mut engine, case).is_ok();
    let violated = demand3(&mut engine, case).err();
    (compared, violated.map(|violation| violation.part))
}

/// The same on sheet L.
fn let_by(engine: impl FnMut(Call) -> Answer) -> (bool, Option<&'static str>) {
    let_by_on(&l_case(5), engine)
}

#[test]
fn the_oracle_passes_and_is_counted() {
    let case = l_case(5);
    let counts = compare(&mut Oracle::default(), &case).expect("no mismatch");
    let answers: Vec<(i64, u64)> = counts.answers.into_iter().collect();
    assert_eq!(answers, [(0, 4), (12, 1), (14, 1)]);
    let counts = demand3(&mut Oracle::default(), &case).expect("no violation");
    for part in ['a', 'b', 'c', 'd'] {
        assert!(counts.checks[&*format!("demand 3 ({part})")] > 5, "{part}");
    }
    assert_eq!(counts.unmet().len(), 16);
}

#[test]
fn an_engine_that_always_says_700() {
    let always = |_: Call| brought([0, 0, 2, 700, 8, 5]);
    assert_eq!(let_by(always), (false, Some("demand 3 (b)")));
}

#[test]
fn an_engine_that_turns_every_question_down() {
    let refusing = |call: Call| brought([12, 0, 0, 0, 0, call.kept as i64]);
    assert_eq!(let_by(refusing), (false, Some("demand 3 (a)")));
}

#[test]
fn an_engine_that_never_writes_its_store() {
    let forgetful = |call: Call| Answer {
        kept: call.kept as i64,
        ..answer_to(&mut Call {
            store: &mut call.store.to_vec(),
            ..call
        })
    };
    assert_eq!(let_by(forgetful), (false, None));
}

#[test]
fn an_engine_with_an_invented_step_count() {
    let inventing = |mut call: Call| {
        let mut given = answer_to(&mut call);
        given.steps += 1;
        given.tally[0] += 1;
        given
    };
    assert_eq!(let_by(inventing), (false, Some("demand 3 (a)")));
}

#[test]
fn engines_that_say_spent_or_depth_on_arrival() {
    for (number, violated) in [(15, Some("demand 3 (a)")), (16, None)] {
        let stopping = |call: Call| brought([number, 0, 0, 0, 0, call.kept as i64]);
        assert_eq!(let_by(stopping), (false, violated));
    }
}

#[test]
fn an_engine_that_keeps_wrong_values() {
    let wrong = |mut call: Call| {
        let given = answer_to(&mut call);
        if given.kept == 5 {
            call.store[4 * 12 + 8] ^= 1;
        }
        given
    };
    assert_eq!(let_by(wrong), (false, Some("demand 3 (b)")));
}

#[test]
fn an_engine_that_scribbles_past_the_kept_entries() {
    let scribbling = |mut call: Call| {
        let given = answer_to(&mut call);
        if let Some(last) = call.store.last_mut() {
            *last = call.budget as u8;
        }
        given
    };
    assert_eq!(let_by(scribbling), (false, Some("demand 3 (d)")));
}

#[test]
fn an_engine_that_uses_only_small_stores() {
    let small = |mut call: Call| {
        if call.store.len() > 60 {
            call.store = &mut [];
            call.kept = 0;
        }
        answer_to(&mut call)
    };
    assert_eq!(let_by(small), (true, Some("demand 3 (c)")));
}

/// D; D and the Int that is one too many for it, where D is kept; and L13.
fn overflow_case() -> Case {
    let beyond = binary(ADD, &d(), &int(i32::MAX - 699));
    case(5, &[d(), beyond, l13()])
}

/// The right answer to a call, but 15 where it is 17 with the whole budget used.
fn late(call: &mut Call) -> Answer {
    let given = answer_to(call);
    let spent = given.steps as u64 == call.budget;
    match given.number {
        17 if spent => Answer {
            number: 15,
            ..given
        },
        _ => given,
    }
}

#[test]
fn an_engine_that_tests_overflow_after_spent() {
    // Demand 3 tries the budgets at which the two are due together, and the list's own are larger.
    let by = let_by_on(&overflow_case(), |mut call: Call| late(&mut call));
    assert_eq!(by, (true, Some("demand 3 (a)")));
}

#[test]
fn engines_that_give_a_sum_beyond_the_end_a_value() {
    // The end itself, or the sum without its highest bits.
    for value in [i64::from(i32::MAX), i64::from(i32::MIN)] {
        let valued = |mut call: Call| {
            let given = late(&mut call);
            let mut tally = given.tally;
            tally[32] += 1;
            match given.number {
                17 => Answer::new([0, 0, 2, value, given.steps + 1, given.kept], tally),
                _ => given,
            }
        };
        // With D kept, the value comes within fewer steps than plain Saiga takes to overflow.
        let by = let_by_on(&overflow_case(), valued);
        assert_eq!(by, (false, Some("demand 3 (b)")));
        let by = let_by_on(&case(5, &[l13()]), valued);
        assert_eq!(by, (false, Some("demand 3 (a)")));
    }
}

#[test]
fn an_engine_that_counts_the_step_of_a_sum_that_does_not_fit() {
    let counting = |mut call: Call| {
        let mut given = answer_to(&mut call);
        if given.number == 17 {
            given.steps += 1;
            given.tally[32] += 1;
        }
        given
    };
    let by = let_by_on(&overflow_case(), counting);
    assert_eq!(by, (false, Some("demand 3 (a)")));
}

#[test]
fn an_engine_that_takes_the_end_itself_for_overflow() {
    let end = case(5, &[binary(ADD, &int(i32::MAX - 1), &int(1))]);
    let narrow = |mut call: Call| {
        let given = answer_to(&mut call);
        match given.value {
            2_147_483_647 => brought([17, 0, 0, 0, 1, given.kept]),
            _ => given,
        }
    };
    let by = let_by_on(&end, narrow);
    assert_eq!(by, (false, Some("demand 3 (a)")));
}

#[test]
fn an_engine_that_keeps_what_overflow_left_open() {
    // An attribute that is L13.
    let sheet = [
        attribute(INT_TYPE, UNIT_TYPE),
        node(0),
        rule(0, 0, &l13()),
        end(),
    ]
    .concat();
    let question = of(&node_literal(0), 0, &UNIT);
    let list = Case {
        sheet,
        ..case(5, &[question.clone(), question])
    };
    let keeping = |mut call: Call| {
        let given = answer_to(&mut call);
        match given.number {
            17 => {
                call.store[..12].copy_from_slice(&entry(0, 0, INT_TYPE, 0, i32::MAX));
                Answer { kept: 1, ..given }
            }
            _ => given,
        }
    };
    // The second question has a value then, within a budget that plain Saiga needs more than to overflow.
    let by = let_by_on(&list, keeping);
    assert_eq!(by, (false, Some("demand 3 (b)")));
}

#[test]
fn engines_that_go_beyond_plain_saiga() {
    // 0 where depth is due, and where a circle is.
    let beyond = |number| {
        move |mut call: Call| {
            let given = answer_to(&mut call);
            match given.number == number {
                true => brought([0, 0, 2, 0, given.steps, given.kept]),
                false => given,
            }
        }
    };
    // An attribute of p is that of p and 1: plain Saiga has not ended by its limit.
    let rising = of(&THIS, 0, &binary(ADD, &PARAMETER, &int(1)));
    let sheet = [
        attribute(INT_TYPE, INT_TYPE),
        node(0),
        rule(0, 0, &rising),
        end(),
    ];
    let rising = Case {
        sheet: sheet.concat(),
        ..case(0, &[of(&node_literal(0), 0, &int(0))])
    };
    assert_eq!(let_by_on(&rising, beyond(16)), (false, Some("capacity 0")));
    let by = let_by_on(&circle_case(0), beyond(20));
    assert_eq!(by, (false, Some("circles (2)")));
}

/// An attribute that is itself, asked for twice.
fn circle_case(capacity: usize) -> Case {
    let question = of(&node_literal(0), 0, &UNIT);
    Case {
        sheet: sheet_l12(),
        ..case(capacity, &[question.clone(), question])
    }
}

#[test]
fn an_engine_that_says_circle_on_arrival() {
    let stopping = |call: Call| brought([20, 0, 0, 0, 0, call.kept as i64]);
    assert_eq!(let_by(stopping), (false, Some("circles (1)")));
}

#[test]
fn an_engine_that_takes_another_parameter_for_the_same() {
    // Inside the first form any other counts as open.
    let list = Case {
        sheet: of_the_other_bool(),
        ..case(5, &[of(&node_literal(0), 0, &TRUE)])
    };
    let careless = |mut call: Call| match answer_to(&mut call) {
        given if given.steps >= 3 => brought([20, 0, 0, 0, 3, 0]),
        given => given,
    };
    assert_eq!(let_by_on(&list, careless), (false, Some("circles (1)")));
}

#[test]
fn an_engine_that_finds_no_circle() {
    // It goes on to the depth, or to the end of its budget, which the claims let by.
    let blind = |mut call: Call| match answer_to(&mut call) {
        Answer { number: 20, .. } if call.budget > 64 => brought([16, 0, 0, 0, 64, 0]),
        Answer { number: 20, .. } => brought([15, 0, 0, 0, call.budget as i64, 0]),
        given => given,
    };
    assert_eq!(let_by_on(&circle_case(5), blind), (false, None));
}

#[test]
fn an_engine_that_tests_the_circle_after_spent() {
    // The claims let 15 by, so only a list whose budget is just used finds it.
    let late = |mut call: Call| {
        let given = answer_to(&mut call);
        match (given.number, given.steps as u64 == call.budget) {
            (20, true) => Answer {
                number: 15,
                ..given
            },
            _ => given,
        }
    };
    let mut list = circle_case(5);
    assert_eq!(let_by_on(&list, late), (true, None));
    list.asks[1].budget = 1;
    assert_eq!(let_by_on(&list, late), (false, None));
}

#[test]
fn an_engine_that_counts_the_step_of_a_circle() {
    let counting = |mut call: Call| {
        let mut given = answer_to(&mut call);
        if given.number == 20 {
            given.steps += 1;
            given.tally[0] += 1;
        }
        given
    };
    assert_eq!(let_by_on(&circle_case(5), counting), (false, None));
    let by = let_by_on(&circle_case(0), counting);
    assert_eq!(by, (false, Some("capacity 0")));
}

#[test]
fn an_engine_that_keeps_what_a_circle_left_open() {
    let keeping = |mut call: Call| {
        let given = answer_to(&mut call);
        match given.number {
            20 => {
                call.store[..12].copy_from_slice(&entry(0, 0, INT_TYPE, 0, 5));
                Answer { kept: 1, ..given }
            }
            _ => given,
        }
    };
    // The second question has a value then, which plain Saiga never comes to.
    let by = let_by_on(&circle_case(5), keeping);
    assert_eq!(by, (false, Some("circles (2)")));
}

/// Sheet LF, with some rules and forwards in the place of its forward.
fn lf_by(rules: &[u8]) -> Vec<u8> {
    l_with(&node(2), &figure(3, UP, 1), rules)
}

/// Own and dial of node 3.
fn forwarded_case(sheet: Vec<u8>, capacity: usize) -> Case {
    let asks = [OWN, DIAL].map(|attribute| of(&node_literal(3), attribute, &UNIT));
    Case {
        sheet,
        ..case(capacity, &asks)
    }
}

#[test]
fn engines_that_take_another_definition_where_a_forward_is_in_force_or_is_not() {
    let up = forward(2, &this_up());
    let with_figure = l_with(
        &node(2),
        &[figure(3, UP, 1), figure(3, OWN, 9)].concat(),
        &up,
    );
    let with_rule = lf_by(&[&up[..], &rule(2, OWN, &int(5))].concat());
    let with_another = lf_by(&[&up[..], &forward(1, &node_literal(2))].concat());
    // The forward before the figure and before the rule takes more steps than there is need of; that of another kind takes fewer, to another node.
    let another = lf_by(&forward(2, &node_literal(2)));
    for (sheet, taken, violated) in [
        (with_figure, sheet_lf(), "demand 3 (a)"),
        (with_rule, sheet_lf(), "demand 3 (a)"),
        (with_another, another, "demand 3 (b)"),
    ] {
        let careless = |call: Call| {
            answer_to(&mut Call {
                sheet: &taken,
                ..call
            })
        };
        let by = let_by_on(&forwarded_case(sheet, 5), careless);
        assert_eq!(by, (false, Some(violated)));
    }
}

#[test]
fn an_engine_that_hands_on_another_parameter() {
    // Node 1 forwards to node 0, whose attribute is its parameter.
    let sheet = |rule_1: &[u8]| {
        [
            attribute(INT_TYPE, INT_TYPE),
            node(0),
            node(1),
            rule(0, 0, &PARAMETER),
            rule_1.to_vec(),
            end(),
        ]
        .concat()
    };
    let to_node_0 = |parameter: &[u8]| rule(1, 0, &of(&node_literal(0), 0, parameter));
    let list = Case {
        sheet: sheet(&forward(1, &node_literal(0))),
        ..case(5, &[of(&node_literal(1), 0, &int(7))])
    };
    for (parameter, by) in [
        (PARAMETER.to_vec(), (true, None)),
        (int(0), (false, Some("demand 3 (a)"))),
    ] {
        let sheet = sheet(&to_node_0(&parameter));
        let handing = |call: Call| {
            answer_to(&mut Call {
                sheet: &sheet,
                ..call
            })
        };
        assert_eq!(let_by_on(&list, handing), by);
    }
}

#[test]
fn an_engine_that_does_not_count_the_step_of_the_node_that_a_forward_leads_to() {
    // It takes fewer steps than plain Saiga, which demand 3 lets by where there is a store.
    let sparing = |mut call: Call| {
        let mut given = answer_to(&mut call);
        let attribute = usize::from(call.question[1]);
        if given.number == 0 && given.tally[attribute] > 1 {
            given.steps -= 1;
            given.tally[attribute] -= 1;
        }
        given
    };
    let list = forwarded_case(sheet_lf(), 7);
    assert_eq!(let_by_on(&list, sparing), (false, None));
    let by = let_by_on(&forwarded_case(sheet_lf(), 0), sparing);
    assert_eq!(by, (false, Some("capacity 0")));
}

#[test]
fn an_engine_that_does_not_keep_what_a_forward_defines() {
    let forgetful = |mut call: Call| {
        let given = answer_to(&mut call);
        let last = 12 * (given.kept as usize).saturating_sub(1);
        match call.store.get(last) {
            // Node 3's own or dial, the last that is kept.
            Some(3) if given.kept > call.kept as i64 => Answer {
                kept: given.kept - 1,
                ..given
            },
            _ => given,
        }
    };
    let list = forwarded_case(sheet_lf(), 1_024);
    assert_eq!(let_by_on(&list, forgetful), (false, None));
}

#[test]
fn with_capacity_0_the_steps_are_plain_saigas_own() {
    // Null is met before the parameter is stepped: fewer steps than plain Saiga's 1, which demand 3 lets by.
    let hasty = |mut call: Call| {
        let given = answer_to(&mut call);
        match given.number {
            14 | 15 => brought([14, 0, 0, 0, 0, given.kept]),
            _ => given,
        }
    };
    let question = of(&NULL, OWN, &if_else(&TRUE, &UNIT, &UNIT));
    let with_capacity =
        |capacity| demand3(&mut hasty.clone(), &case(capacity, from_ref(&question)));
    assert!(with_capacity(1).is_ok());
    let violation = with_capacity(0).expect_err("a step is missing");
    assert_eq!(violation.part, "capacity 0");
}

#[test]
fn an_engine_that_tallies_nothing() {
    let untold = |mut call: Call| Answer {
        tally: [0; 34],
        ..answer_to(&mut call)
    };
    assert_eq!(let_by(untold), (false, Some("tally")));
}

#[test]
fn an_engine_that_does_not_clear_the_tally_under_a_refusal() {
    let mut before = [0; 34];
    let uncleared = |mut call: Call| {
        let mut given = answer_to(&mut call);
        if given.number == 12 {
            given.tally = before;
        }
        before = given.tally;
        given
    };
    assert_eq!(let_by(uncleared), (false, Some("tally")));
}

#[test]
fn engines_with_steps_in_other_rows() {
    // Each attribute's steps in the next row; the conditions' among the applications. The sums are right, and so demand 3 is kept.
    let rows: [fn(usize) -> usize; 2] = [|row| row + usize::from(row < 31), |row| row.min(32)];
    for row_of in rows {
        let misplacing = |mut call: Call| {
            let given = answer_to(&mut call);
            let mut tally = [0; 34];
            for (row, steps) in given.tally.into_iter().enumerate() {
                tally[row_of(row)] += steps;
            }
            Answer { tally, ..given }
        };
        assert_eq!(let_by(misplacing), (false, None));
    }
}

#[test]
fn part_d_is_of_the_tally_too() {
    let by_budget = |mut call: Call| {
        let mut given = answer_to(&mut call);
        if call.budget > 77 {
            given.tally.swap(0, 1);
        }
        given
    };
    assert_eq!(let_by(by_budget), (false, Some("demand 3 (d)")));
}

#[test]
fn a_mismatch_of_tallies_is_shown_in_words() {
    let mut engine = |mut call: Call| {
        let mut given = answer_to(&mut call);
        given.tally.swap(1, 31);
        given
    };
    let mismatch = compare(&mut engine, &case(5, &[d()])).expect_err("rows differ");
    assert_eq!(mismatch.expected.fields(), mismatch.answer.fields());
    assert_eq!(
        mismatch.to_string(),
        "question 0: oracle 0 0 2 700 8 5 \
         (8 steps: 1 of attribute 0, 2 of attribute 1, 2 of attribute 2, 2 applications, 1 condition), \
         engine 0 0 2 700 8 5 \
         (8 steps: 1 of attribute 0, 2 of attribute 2, 2 of attribute 31, 2 applications, 1 condition)"
    );
}

#[test]
fn part_d_is_tried_from_wrong_stores_and_refused_sheets_too() {
    let by_budget = |mut call: Call| {
        let given = answer_to(&mut call);
        Answer {
            value: given.value + i64::from(call.budget > 77),
            ..given
        }
    };
    let mut wrong = case(1, &[d()]);
    wrong.store = entry(1, DIAL, INT_TYPE, 0, 5);
    wrong.kept = 1;
    let violation = demand3(&mut by_budget.clone(), &wrong).expect_err("the budget shows");
    assert_eq!(violation.part, "demand 3 (d)");
    let mut refused = case(0, &[d()]);
    refused.sheet.pop();
    let violation = demand3(&mut by_budget.clone(), &refused).expect_err("the budget shows");
    assert_eq!(violation.part, "demand 3 (d)");
    assert!(demand3(&mut Oracle::default(), &wrong).is_ok());
    assert!(demand3(&mut Oracle::default(), &refused).is_ok());
}

#[test]
fn a_mismatch_says_where_and_shrinks() {
    let mut engine = |mut call: Call| {
        let given = answer_to(&mut call);
        if given.value == 811 {
            call.store[5 * 12] ^= 4;
        }
        given
    };
    let case = l_case(1_024);
    let mismatch = compare(&mut engine, &case).expect_err("a byte differs");
    assert_eq!(mismatch.question, 2);
    assert_eq!(mismatch.expected, mismatch.answer);
    assert_eq!(mismatch.byte, Some((60, 2, 6)));
    let shrunk = shrink(case, |case| {
        case.store.len() > 60 && compare(&mut engine, case).is_err()
    });
    assert_eq!(shrunk.asks.len(), 1);
    assert_eq!(shrunk.asks[0].budget, 2);
    assert_eq!(shrunk.store.len(), 72);
    // Node 2's dial is its own at once.
    assert_eq!(shrunk.sheet.len(), sheet_l().len() - 21);
}

#[test]
fn a_soak_ends_with_a_shrunk_list_that_can_be_replayed() {
    let mut engine = |mut call: Call| {
        let given = answer_to(&mut call);
        Answer {
            kept: given.kept + i64::from(given.number == 16),
            ..given
        }
    };
    let failure = soak(10_000, 4, |case| {
        compare(&mut engine, case).map_err(|mismatch| mismatch.to_string())
    })
    .expect_err("some question is too deep");
    assert!(failure.detail.starts_with("question 0: oracle 16 0 0 0 "));
    assert_eq!(failure.list.case.asks.len(), 1);
    let lists = read_lists(&failure.list.to_string()).expect("the text form");
    assert_eq!(lists.len(), 1);
    assert!(compare(&mut engine, &lists[0].case).is_err());
}

#[test]
fn a_soak_that_passes_counts_its_answers() {
    let soaked = soak(50, 4, |case| {
        compare(&mut Oracle::default(), case).map_err(|mismatch| mismatch.to_string())
    });
    let counts = soaked.expect("the oracle agrees with itself");
    assert!(counts.answers.values().sum::<u64>() > 10);
}

#[test]
fn lists_are_written_as_they_are_read() {
    let mut lent = case(3, &[d(), l10(), Vec::new()]);
    lent.store = vec![0xAB; 36];
    lent.asks[0].budget = u64::MAX;
    let listed = lent.answered(&mut Oracle::default());
    let text = listed.to_string();
    let zeros = ["0"; 34].join(" ");
    let up_of_node_0 = format!("1{}", &zeros[1..]);
    for (line, tally) in [
        (
            "ask 18446744073709551615 220213010010 -> 11 0 0 0 0 0",
            &zeros,
        ),
        (
            "ask 1000000 220122001300001010 -> 14 0 0 0 1 1",
            &up_of_node_0,
        ),
        ("ask 1000000 - -> 12 0 0 0 0 1", &zeros),
    ] {
        assert!(
            text.contains(&format!("\n{line}\ntally {tally}\n")),
            "{line}"
        );
    }
    assert!(text.ends_with("left 1 0000000300000000ffff0000\n"));
    assert_eq!(read_lists(&text), Ok(vec![listed.clone()]));
    let twice = format!("{text}{text}");
    assert_eq!(read_lists(&twice), Ok(vec![listed.clone(), listed]));
}

#[test]
fn a_line_that_is_not_understood_is_named() {
    let good = case(1, &[d()]).answered(&mut Oracle::default()).to_string();
    assert!(read_lists(&good).is_ok());
    let bad = [
        (good.replace("sheet", "shoot"), "line 1"),
        (good.replace("store 12 0 -", "store 12 0 00"), "line 2"),
        (good.replace(" -> ", " = "), "line 3"),
        (good.replace("ask 1000000", "ask -1"), "line 3"),
        (good.replace("tally 1 2", "tally 1"), "line 4"),
        (good.replace("tally 1", "tally 0 1"), "line 4"),
        (good.replace("tally 1", "tally -1"), "line 4"),
        (good.replace("tally", "ask"), "line 4"),
        (good.replace("left", "tally"), "line 5"),
        (good.replace("left 1", "left 0"), "line 5"),
        (good.replace("left 1", "left 1 zz"), "line 5"),
    ];
    for (text, line) in bad {
        let error = read_lists(&text).expect_err("not understood");
        assert!(error.starts_with(line), "{error}");
    }
    let cut = good.lines().next().expect("a line");
    assert!(read_lists(cut).is_err());
    // An answer without its tally.
    let lines: Vec<&str> = good.lines().collect();
    let without = [&lines[..3], &lines[4..]].concat().join("\n");
    let error = read_lists(&without).expect_err("not understood");
    assert!(error.starts_with("line 4"), "{error}");
}

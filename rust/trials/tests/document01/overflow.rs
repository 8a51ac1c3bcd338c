//! Stop 17 (document 02, F-4): "an add or subtract whose exact result lies outside Int has no value". It is "tested like 14 before 15, and it
//! leaves store and tally as 14 does".

use crate::ask;
use crate::common::*;
use oracle::plain::Ending;
use oracle::values::Value;

const LEAST: i32 = i32::MIN;
const GREATEST: i32 = i32::MAX;

/// Sums and differences that fit, the ends themselves among them.
const FIT: [(u8, i32, i32, i32); 16] = [
    (ADD, GREATEST, 0, GREATEST),
    (ADD, 0, GREATEST, GREATEST),
    (ADD, GREATEST - 1, 1, GREATEST),
    (ADD, GREATEST, -1, GREATEST - 1),
    (ADD, LEAST, 0, LEAST),
    (ADD, LEAST + 1, -1, LEAST),
    (ADD, -1, LEAST + 1, LEAST),
    (ADD, LEAST, GREATEST, -1),
    (SUBTRACT, GREATEST, 0, GREATEST),
    (SUBTRACT, GREATEST - 1, -1, GREATEST),
    (SUBTRACT, -1, LEAST, GREATEST),
    (SUBTRACT, LEAST, 0, LEAST),
    (SUBTRACT, LEAST + 1, 1, LEAST),
    (SUBTRACT, -1, GREATEST, LEAST),
    (SUBTRACT, LEAST, LEAST, 0),
    (SUBTRACT, 0, GREATEST, LEAST + 1),
];

/// Sums and differences one beyond an end, and far beyond.
const DO_NOT_FIT: [(u8, i32, i32); 13] = [
    (ADD, GREATEST, 1),
    (ADD, 1, GREATEST),
    (ADD, GREATEST, GREATEST),
    (ADD, LEAST, -1),
    (ADD, -1, LEAST),
    (ADD, LEAST, LEAST),
    (SUBTRACT, GREATEST, -1),
    (SUBTRACT, 0, LEAST),
    (SUBTRACT, GREATEST, LEAST),
    (SUBTRACT, LEAST, 1),
    (SUBTRACT, -2, GREATEST),
    (SUBTRACT, LEAST, GREATEST),
    (SUBTRACT, 1, -GREATEST),
];

fn of_ints(code: u8, first: i32, second: i32) -> Vec<u8> {
    binary(code, &int(first), &int(second))
}

/// Node 0 with one attribute, an Int with an Int parameter, and its rule.
fn ruled(expr: &[u8]) -> Vec<u8> {
    [
        attribute(INT_TYPE, INT_TYPE),
        node(0),
        rule(0, 0, expr),
        end(),
    ]
    .concat()
}

/// A question's answer with room for nothing, on the sheet that declares nothing.
fn alone(question: &[u8], budget: u64) -> [i64; 6] {
    Lent::new(0).ask(&end(), question, budget).fields()
}

#[test]
fn the_ends_themselves_are_figures() {
    for (code, first, second, result) in FIT {
        let question = of_ints(code, first, second);
        assert_eq!(alone(&question, 0), [15, 0, 0, 0, 0, 0]);
        assert_eq!(alone(&question, 1), [15, 0, 0, 0, 1, 0]);
        for budget in [2, 3, MOST] {
            let value = [0, 0, 2, result.into(), 2, 0];
            assert_eq!(alone(&question, budget), value, "{first} {second}");
        }
    }
}

#[test]
fn beyond_an_end_there_is_no_value() {
    for (code, first, second) in DO_NOT_FIT {
        let question = of_ints(code, first, second);
        // The first application is due as ever; the second is not counted, and stops before the budget is asked.
        assert_eq!(alone(&question, 0), [15, 0, 0, 0, 0, 0]);
        for budget in [1, 2, 3, MOST] {
            let overflow = [17, 0, 0, 0, 1, 0];
            assert_eq!(alone(&question, budget), overflow, "{first} {second}");
        }
    }
}

#[test]
fn le_and_equal_always_have_a_value() {
    let fit = FIT.map(|(_, first, second, _)| (first, second));
    let do_not_fit = DO_NOT_FIT.map(|(_, first, second)| (first, second));
    for (first, second) in fit.into_iter().chain(do_not_fit) {
        for (code, truth) in [(LE, first <= second), (EQUAL, first == second)] {
            let question = of_ints(code, first, second);
            assert_eq!(alone(&question, 1), [15, 0, 0, 0, 1, 0]);
            assert_eq!(alone(&question, 2), [0, 0, 1, truth.into(), 2, 0]);
        }
    }
}

#[test]
fn only_the_application_with_both_arguments_can_overflow() {
    // The function that holds the greatest Int is chosen by an IF, after it has got its argument.
    let holding = |code| apply(&function(code), &int(GREATEST));
    let chosen = if_else(&TRUE, &holding(ADD), &holding(SUBTRACT));
    let question = |second| apply(&chosen, &int(second));
    assert_eq!(alone(&question(0), 3), [0, 0, 2, GREATEST.into(), 3, 0]);
    assert_eq!(alone(&question(1), 1), [15, 0, 0, 0, 1, 0]);
    assert_eq!(alone(&question(1), 2), [17, 0, 0, 0, 2, 0]);
    assert_eq!(alone(&question(1), MOST), [17, 0, 0, 0, 2, 0]);
}

#[test]
fn a_sum_of_a_branch_not_taken_is_not_due() {
    for question in [
        if_else(&TRUE, &int(5), &l13()),
        if_else(&FALSE, &l13(), &int(5)),
    ] {
        assert_eq!(alone(&question, MOST), [0, 0, 2, 5, 1, 0]);
    }
}

/// Attributes of node 0, all Ints: END a figure, STEP a rule that takes a step, SUM their sum, and OUTER the sum of STEP and SUM.
const END: u8 = 0;
const STEP: u8 = 1;
const SUM: u8 = 2;
const OUTER: u8 = 3;

/// Node 0's SUM is the figure and 1.
fn sums(figure_of_end: i32) -> Vec<u8> {
    let here = |attribute| of(&THIS, attribute, &UNIT);
    [
        attribute(INT_TYPE, UNIT_TYPE).repeat(4),
        node(0),
        figure(0, END, figure_of_end),
        rule(0, STEP, &if_else(&TRUE, &int(1), &int(0))),
        rule(0, SUM, &binary(ADD, &here(END), &here(STEP))),
        rule(0, OUTER, &binary(ADD, &here(STEP), &here(SUM))),
        end(),
    ]
    .concat()
}

fn asked(attribute: u8) -> Vec<u8> {
    of(&node_literal(0), attribute, &UNIT)
}

/// What OUTER keeps before it stops: STEP and END, in this order.
fn finished() -> Vec<u8> {
    [
        entry(0, STEP, INT_TYPE, 0, 1),
        entry(0, END, INT_TYPE, 0, GREATEST),
    ]
    .concat()
}

#[test]
fn inside_open_forms_what_is_finished_is_kept_and_what_is_open_is_not() {
    let sheet = sums(GREATEST);
    let mut lent = Lent::new(5);
    // OUTER, STEP and its IF, add's first, SUM, END, add's first, STEP again, which is kept.
    let given = lent.ask(&sheet, &asked(OUTER), MOST);
    assert_eq!(given.fields(), [17, 0, 0, 0, 8, 2]);
    let left = [finished(), vec![0xEE; 36]].concat();
    assert_eq!(lent.store, left);
    // Asked again, STEP's IF is spared; SUM and OUTER stop as before, and nothing more is kept.
    for (attribute, steps) in [(OUTER, 7), (OUTER, 7), (SUM, 4), (SUM, 4)] {
        let given = lent.ask(&sheet, &asked(attribute), MOST);
        assert_eq!(given.fields(), [17, 0, 0, 0, steps, 2]);
        assert_eq!(lent.store, left);
    }
    // What was finished is there for the next question.
    for (attribute, value) in [(STEP, 1), (END, GREATEST)] {
        let given = lent.ask(&sheet, &asked(attribute), 1);
        assert_eq!(given.fields(), [0, 0, 2, value.into(), 1, 2]);
    }
}

#[test]
fn with_one_less_the_same_question_has_a_value_or_stops_later() {
    // SUM is the end itself and is kept; OUTER is one beyond.
    let mut lent = Lent::new(5);
    let given = lent.ask(&sums(GREATEST - 1), &asked(OUTER), MOST);
    assert_eq!(given.fields(), [17, 0, 0, 0, 9, 3]);
    let sum = entry(0, SUM, INT_TYPE, 0, GREATEST);
    assert_eq!(lent.store[24..36], sum);
    let given = lent.ask(&sums(GREATEST - 1), &asked(SUM), MOST);
    assert_eq!(given.fields(), [0, 0, 2, GREATEST.into(), 1, 3]);
    // With two less OUTER is the end.
    let given = Lent::new(5).ask(&sums(GREATEST - 2), &asked(OUTER), MOST);
    assert_eq!(given.fields(), [0, 0, 2, GREATEST.into(), 10, 4]);
}

#[test]
fn with_the_whole_budget_used_17_goes_before_15() {
    let sheet = sums(GREATEST);
    // How many are kept after so many steps.
    let kept = [0, 0, 0, 1, 1, 1, 2, 2];
    for (budget, kept) in kept.into_iter().enumerate() {
        let given = fresh(&sheet, &asked(OUTER), budget as u64);
        assert_eq!(given.fields(), [15, 0, 0, 0, budget as i64, kept]);
    }
    for budget in [8, 9, 10, MOST] {
        let given = fresh(&sheet, &asked(OUTER), budget);
        assert_eq!(given.fields(), [17, 0, 0, 0, 8, 2]);
    }
    // Where the sum fits, the same budget is spent.
    for budget in [8, 9] {
        let given = fresh(&sums(GREATEST - 2), &asked(OUTER), budget);
        assert_eq!(given.fields()[..5], [15, 0, 0, 0, budget as i64]);
    }
}

#[test]
fn a_lent_figure_is_believed() {
    let sheet = sums(GREATEST);
    // SUM has no value, but the store says 5.
    let mut store = entry(0, SUM, INT_TYPE, 0, 5);
    let given = ask(&sheet, &mut store, 1, &asked(OUTER), MOST);
    assert_eq!(given.fields(), [0, 0, 2, 6, 6, 1]);
    // END is no end by the store; and by another, SUM is one beyond the lower.
    let mut store = entry(0, END, INT_TYPE, 0, 7);
    let given = ask(&sheet, &mut store, 1, &asked(SUM), MOST);
    assert_eq!(given.fields(), [0, 0, 2, 8, 6, 1]);
    let lent = [
        entry(0, END, INT_TYPE, 0, LEAST),
        entry(0, STEP, INT_TYPE, 0, -1),
    ]
    .concat();
    let mut store = lent.clone();
    let given = ask(&sheet, &mut store, 2, &asked(SUM), MOST);
    assert_eq!(given.fields(), [17, 0, 0, 0, 4, 2]);
    assert_eq!(store, lent);
}

#[test]
fn the_part_that_is_due_first_decides_between_14_and_17() {
    let of_null = of(&NULL, OWN, &UNIT);
    let fields = |question: &[u8], budget| fresh(&sheet_l(), question, budget).fields();
    for code in [ADD, SUBTRACT] {
        // Null is due before any step, the sum after one.
        let null_first = binary(code, &of_null, &l13());
        assert_eq!(fields(&null_first, MOST), [14, 0, 0, 0, 0, 0]);
        let sum_first = binary(code, &l13(), &of_null);
        assert_eq!(fields(&sum_first, 1), [17, 0, 0, 0, 1, 0]);
        assert_eq!(fields(&sum_first, MOST), [17, 0, 0, 0, 1, 0]);
    }
    // Null is met after the parameter, and the node before it.
    let sheet = ruled(&PARAMETER);
    let given = fresh(&sheet, &of(&NULL, 0, &l13()), MOST);
    assert_eq!(given.fields(), [17, 0, 0, 0, 1, 0]);
    let null = if_else(&binary(LE, &int(0), &l13()), &NULL, &node_literal(0));
    let given = fresh(&sheet, &of(&null, 0, &of(&NULL, 0, &int(1))), MOST);
    assert_eq!(given.fields(), [17, 0, 0, 0, 2, 0]);
}

/// Attribute 0 of p opens p forms, six steps for each but the last, in which it is an Int expression after four. Attribute 1 is the figure 9.
fn falling(last: &[u8]) -> Vec<u8> {
    let less = binary(SUBTRACT, &PARAMETER, &int(1));
    let fall = if_else(&binary(LE, &PARAMETER, &int(1)), last, &of(&THIS, 0, &less));
    [
        attribute(INT_TYPE, INT_TYPE),
        attribute(INT_TYPE, UNIT_TYPE),
        node(0),
        figure(0, 1, 9),
        rule(0, 0, &fall),
        end(),
    ]
    .concat()
}

#[test]
fn the_part_that_is_due_first_decides_between_16_and_17() {
    let figure = of(&THIS, 1, &UNIT);
    let sum_alone = falling(&l13());
    let sum_first = falling(&binary(ADD, &l13(), &figure));
    let figure_first = falling(&binary(ADD, &figure, &l13()));
    let question = |forms| of(&node_literal(0), 0, &int(forms));
    let before = |forms: i64| 6 * (forms - 1) + 4;
    // A sum needs no depth: inside 64 forms it stops as anywhere.
    for sheet in [&sum_alone, &sum_first] {
        for forms in [1, 63, 64] {
            let steps = before(forms.into()) + 1;
            for budget in [steps as u64, MOST] {
                let given = fresh(sheet, &question(forms), budget);
                assert_eq!(given.fields(), [17, 0, 0, 0, steps, 0], "{forms}");
            }
        }
    }
    // Inside 64 the figure is too deep, and inside 63 it is kept before the sum is due.
    let given = fresh(&figure_first, &question(64), MOST);
    assert_eq!(given.fields(), [16, 0, 0, 0, before(64), 0]);
    let given = fresh(&figure_first, &question(63), MOST);
    assert_eq!(given.fields(), [17, 0, 0, 0, before(63) + 3, 1]);
    // One form more is too deep before any sum.
    for sheet in [&sum_alone, &sum_first, &figure_first] {
        let given = fresh(sheet, &question(65), MOST);
        assert_eq!(given.fields(), [16, 0, 0, 0, 6 * 64, 0]);
    }
}

#[test]
fn a_sum_that_does_not_fit_stops_wherever_it_stands() {
    // Attribute 0 is its parameter. The sum is due after 1 step of its own, and what stands before it.
    let sheet = ruled(&PARAMETER);
    let echo = |node: &[u8], parameter: &[u8]| of(node, 0, parameter);
    let node = node_literal(0);
    let five = echo(&node, &int(5));
    let condition = binary(EQUAL, &l13(), &int(0));
    let node_part = if_else(&condition, &node, &node);
    let places = [
        // A condition, with the argument that it is compared with before it.
        (if_else(&condition, &UNIT, &UNIT), 1, 0),
        (if_else(&binary(LE, &five, &l13()), &UNIT, &UNIT), 3, 1),
        // A branch that is taken.
        (if_else(&TRUE, &l13(), &int(5)), 2, 0),
        (if_else(&FALSE, &int(5), &l13()), 2, 0),
        // A parameter, and a parameter's parameter.
        (echo(&node, &l13()), 1, 0),
        (echo(&node, &echo(&node, &l13())), 1, 0),
        // The node of an attribute, whose parameter is not due then.
        (echo(&node_part, &five), 1, 0),
        // Either argument of a sum, of le and of equal.
        (binary(ADD, &l13(), &five), 1, 0),
        (binary(ADD, &five, &l13()), 3, 1),
        (binary(SUBTRACT, &int(0), &l13()), 2, 0),
        (binary(LE, &l13(), &int(0)), 1, 0),
        (binary(EQUAL, &five, &l13()), 3, 1),
    ];
    for (question, steps, kept) in places {
        for budget in [steps as u64, MOST] {
            let given = fresh(&sheet, &question, budget);
            let stop = [17, 0, 0, 0, steps, kept];
            assert_eq!(given.fields(), stop, "{question:?}");
        }
        let given = fresh(&sheet, &question, steps as u64 - 1);
        assert_eq!(given.fields()[..5], [15, 0, 0, 0, steps - 1]);
    }
}

/// Attribute 0 of p is attribute 0 of p and 1, or of p less 1: three steps in each form.
fn climbing(code: u8) -> Vec<u8> {
    let further = binary(code, &PARAMETER, &int(1));
    ruled(&of(&THIS, 0, &further))
}

/// The question that climbs to an end of Int from so far below the upper one, or above the lower one.
fn climb(code: u8, from_end: i32) -> Vec<u8> {
    let start = match code {
        ADD => GREATEST - from_end,
        _ => LEAST + from_end,
    };
    of(&node_literal(0), 0, &int(start))
}

#[test]
fn a_recursion_that_climbs_to_an_end_ends_there() {
    for code in [ADD, SUBTRACT] {
        let sheet = climbing(code);
        for from_end in [0, 1, 5, 63] {
            let question = climb(code, from_end);
            let steps = 3 * u64::from(from_end as u32) + 2;
            let ending = plain_ending(&sheet, &question, MOST);
            assert_eq!(ending, Ending::Overflow(steps));
            for budget in [steps, steps + 1, MOST] {
                let given = fresh(&sheet, &question, budget);
                assert_eq!(given.fields(), [17, 0, 0, 0, steps as i64, 0]);
            }
            let given = fresh(&sheet, &question, steps - 1);
            assert_eq!(given.fields(), [15, 0, 0, 0, steps as i64 - 1, 0]);
        }
        // From one more, the 65th form is due before the end is met; plain Saiga goes on to it.
        let question = climb(code, 64);
        let given = fresh(&sheet, &question, MOST);
        assert_eq!(given.fields(), [16, 0, 0, 0, 3 * 64, 0]);
        let ending = plain_ending(&sheet, &question, MOST);
        assert_eq!(ending, Ending::Overflow(3 * 64 + 2));
    }
}

#[test]
fn the_end_cannot_be_told_by_adding_to_it() {
    // Attribute 0 of p is p where p and 1 is no more than p, and else that of p and 1.
    let more = binary(ADD, &PARAMETER, &int(1));
    let at_end = binary(LE, &more, &PARAMETER);
    let sheet = ruled(&if_else(&at_end, &PARAMETER, &of(&THIS, 0, &more)));
    // Each form but the last takes AttrApp, the sum's two, le's two, CondFalse, and the sum's two again.
    let question = of(&node_literal(0), 0, &int(GREATEST - 2));
    let given = fresh(&sheet, &question, MOST);
    assert_eq!(given.fields(), [17, 0, 0, 0, 2 * 8 + 2, 0]);
}

#[test]
fn plain_saiga_ends_at_once_and_uncounted() {
    for (code, first, second) in DO_NOT_FIT {
        let question = of_ints(code, first, second);
        let ending = |limit| plain_ending(&end(), &question, limit);
        assert_eq!(ending(0), Ending::Running(0));
        assert_eq!(ending(1), Ending::Overflow(1));
        assert_eq!(ending(MOST), Ending::Overflow(1));
    }
    for (code, first, second, result) in FIT {
        let ending = plain_ending(&end(), &of_ints(code, first, second), 2);
        assert_eq!(ending, Ending::Value(Value::Int(result), 2));
    }
    // It keeps nothing: STEP's IF is taken twice.
    let ending = plain_ending(&sums(GREATEST), &asked(OUTER), MOST);
    assert_eq!(ending, Ending::Overflow(9));
}

#[test]
fn a_larger_store_brings_the_same_stop_in_no_more_steps() {
    // STEP is kept first; with nothing kept its IF is taken again.
    for (capacity, steps, kept) in [(0, 9, 0), (1, 8, 1), (2, 8, 2), (1_024, 8, 2)] {
        let given = Lent::new(capacity).ask(&sums(GREATEST), &asked(OUTER), MOST);
        assert_eq!(given.fields(), [17, 0, 0, 0, steps, kept], "{capacity}");
    }
}

/// Tries demand 3 on a list in which sums do not fit.
fn demand_3_holds(sheet: &[u8], asks: &[(Vec<u8>, u64)]) {
    for (capacity, counts) in tried_by_demand_3(sheet, asks) {
        for part in ["demand 3 (a)", "demand 3 (b)", "demand 3 (d)"] {
            assert!(counts.checks[part] >= 4, "{part}");
        }
        // No store is larger than the largest.
        let larger = counts.checks.get("demand 3 (c)").copied();
        assert_eq!(larger.is_some(), capacity < 1_024, "(c)");
        assert!(counts.answers[&17] > 0);
    }
}

#[test]
fn demand_3_holds_of_sums_inside_forms() {
    for figure in [GREATEST, GREATEST - 1, GREATEST - 2] {
        let questions = [OUTER, SUM, STEP, OUTER, END, SUM, OUTER].map(asked);
        let budgets = [8, MOST, 0, 7, 1, 3, MOST];
        let mut list: Vec<_> = questions.into_iter().zip(budgets).collect();
        list.push((binary(ADD, &asked(OUTER), &asked(OUTER)), MOST));
        demand_3_holds(&sums(figure), &list);
    }
}

#[test]
fn demand_3_holds_of_recursions_that_climb() {
    for code in [ADD, SUBTRACT] {
        let starts = [(1, MOST), (0, 2), (0, 1), (63, 191), (63, 190), (64, MOST)];
        let list = starts.map(|(from_end, budget)| (climb(code, from_end), budget));
        demand_3_holds(&climbing(code), &list);
    }
    let figure = of(&THIS, 1, &UNIT);
    let sheet = falling(&binary(ADD, &figure, &l13()));
    let list = [64, 63, 65, 1].map(|forms| (of(&node_literal(0), 0, &int(forms)), MOST));
    demand_3_holds(&sheet, &list);
}

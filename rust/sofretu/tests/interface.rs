//! The safe interface at work: what a session keeps, what is refused where, and that the three ways of asking agree.

use sofretu::{
    ask, ask_cleared, check, Answer, Call, Origin, Refusal, Scratch, Session, Sheet, Stop, Store,
    Tally, Value, MOST_STEPS,
};

/// One Int attribute with an Int parameter, on one node: the parameter and one more.
const ONE_MORE: [u8; 21] = [
    0x41, 2, 2, // the attribute
    0x4E, 0, // the node
    0x52, 0, 0, 10, 0, 0x21, 0x21, 0x14, 4, 0x31, 0x12, 1, 0, 0, 0, // the rule
    0x5A,
];

/// The attribute of node 0 with a parameter.
fn after(parameter: i32) -> Vec<u8> {
    let mut question = vec![0x22, 0, 0x13, 0, 0, 0x12];
    question.extend(parameter.to_le_bytes());
    question
}

/// A tally of the one attribute and of applications.
fn tally(attribute: u64, applications: u64) -> Tally {
    let mut rows = [0; 34];
    (rows[0], rows[32]) = (attribute, applications);
    Tally::from(rows)
}

/// What an answer brings: its value, its steps, the number kept and the tally.
fn brings(answer: Answer) -> (Result<Value, Refusal>, u64, u64, Tally) {
    (answer.value, answer.steps, answer.kept, answer.tally)
}

/// A call with a store that has room for nothing.
fn within<'a>(sheet: &'a [u8], question: &'a [u8], budget: u64) -> Call<'a> {
    Call {
        sheet,
        question,
        store: &mut [],
        kept: 0,
        budget,
    }
}

#[test]
fn a_session_keeps_what_it_works_out() {
    let sheet = Sheet::check(&ONE_MORE).expect("an accepted sheet");
    assert_eq!((sheet.attributes(), sheet.nodes()), (1, 1));
    let mut store = Store::with_capacity(2);
    let mut session = Session::open(&sheet, &mut store).expect("an empty store");
    // What is not kept takes the attribute's step and the two of add.
    for (parameter, applications, kept) in [
        (5, 2, 1),
        (5, 0, 1),
        (i32::MAX - 1, 2, 2),
        (9, 2, 2),
        (9, 2, 2),
    ] {
        let (value, steps) = (Value::Int(parameter + 1), 1 + applications);
        let expected = (Ok(value), steps, kept, tally(1, applications));
        assert_eq!(brings(session.ask(&after(parameter), MOST_STEPS)), expected);
        assert_eq!(session.store().kept(), kept);
    }
    let again = Session::open(&sheet, &mut store).map(|session| session.store().clone());
    assert_eq!(again.expect("what a session left passes"), store);
}

#[test]
fn a_sum_that_does_not_fit_is_no_figure() {
    let sheet = Sheet::check(&ONE_MORE).expect("an accepted sheet");
    let mut store = Store::with_capacity(2);
    let mut session = Session::open(&sheet, &mut store).expect("an empty store");
    let _ = session.ask(&after(5), MOST_STEPS);
    let before = session.store().clone();
    // The attribute's step and the first of add are counted; the one that would bring the sum is not. Nor is the figure kept, so it is the
    // same when asked again, and with just the steps before.
    let expected = (Err(Stop::Overflow.at(0)), 2, 1, tally(1, 1));
    for budget in [MOST_STEPS, MOST_STEPS, 3, 2] {
        assert_eq!(brings(session.ask(&after(i32::MAX), budget)), expected);
        assert_eq!(*session.store(), before);
    }
    let spent = session.ask(&after(i32::MAX), 1).value;
    assert_eq!(spent, Err(Stop::Spent.into()));
    assert_eq!(Stop::Overflow.origin(), Origin::Run);
    // The end itself fits.
    let last = session.ask(&after(i32::MAX - 1), 3).value;
    assert_eq!(last, Ok(Value::Int(i32::MAX)));
}

#[test]
fn an_equation_that_needs_its_own_value_is_a_circle() {
    // The attribute of a Bool on one node: it is that of the other Bool, and so that of the same one again.
    let sheet = [
        0x41, 2, 1, 0x4E, 0, // the attribute and the node
        0x52, 0, 0, 7, 0, 0x22, 0, 0x30, 0x21, 0x14, 3, 0x31, // the rule
        0x5A,
    ];
    let question = [0x22, 0, 0x13, 0, 0, 0x11, 1];
    let sheet = Sheet::check(&sheet).expect("an accepted sheet");
    let mut store = Store::with_capacity(2);
    let mut session = Session::open(&sheet, &mut store).expect("an empty store");
    let before = session.store().clone();
    // The attribute of both Bools and not for each are counted; the attribute that is due inside itself is not. No larger budget brings more, and
    // nothing is kept.
    let expected = (Err(Stop::Circle.at(0)), 4, 0, tally(2, 2));
    for budget in [MOST_STEPS, MOST_STEPS, 5, 4] {
        assert_eq!(brings(session.ask(&question, budget)), expected);
        assert_eq!(*session.store(), before);
    }
    let spent = session.ask(&question, 3).value;
    assert_eq!(spent, Err(Stop::Spent.into()));
    assert_eq!(Stop::Circle.origin(), Origin::Run);
    assert_eq!(
        Refusal::from(Stop::Circle).to_string(),
        "stop 20: an attribute was due inside itself, and so needs its own value"
    );
}

/// The attribute of `ONE_MORE` and an attribute that is a node. Node 0 has the rule; nodes 1 and 2 are of kind 1, which forwards to the node that they
/// lead to: node 0, and null.
const FORWARDED: [u8; 60] = [
    0x41, 2, 2, 0x41, 3, 0, // the attributes
    0x4E, 0, 0x4E, 1, 0x4E, 1, // the nodes
    0x56, 0, 0, 1, 0xFF, 0xFF, 0, 0, // node 0 leads to null,
    0x56, 1, 0, 1, 0, 0, 0, 0, // node 1 to node 0,
    0x56, 2, 0, 1, 0xFF, 0xFF, 0, 0, // node 2 to null
    0x46, 1, 4, 0, 0x22, 1, 0x30, 0x10, // kind 1's forward
    0x52, 0, 0, 10, 0, 0x21, 0x21, 0x14, 4, 0x31, 0x12, 1, 0, 0, 0, // the rule
    0x5A,
];

#[test]
fn a_kind_that_forwards_has_the_figures_of_another_node() {
    let sheet = Sheet::check(&FORWARDED).expect("an accepted sheet");
    assert_eq!((sheet.attributes(), sheet.nodes()), (2, 3));
    let mut store = Store::with_capacity(8);
    let mut session = Session::open(&sheet, &mut store).expect("an empty store");
    let after = |node: u8, parameter: u8| [0x22, 0, 0x13, node, 0, 0x12, parameter, 0, 0, 0];
    // The attribute of both nodes, the one that node 1 leads by, and the two of add.
    let answer = session.ask(&after(1, 5), MOST_STEPS);
    assert_eq!(answer.to_string(), "0 0 2 6 5 3");
    let tally = "5 steps: 2 of attribute 0, 1 of attribute 1, 2 applications";
    assert_eq!(answer.tally.to_string(), tally);
    // Both are kept, the inner one first.
    let kept = session.store().entries().map(|entry| {
        let entry = entry.expect("an entry");
        (entry.node, entry.attribute, entry.parameter, entry.value)
    });
    assert!(kept.eq([
        (1, 1, 0, Value::Node(Some(0))),
        (0, 0, 5, Value::Int(6)),
        (1, 0, 5, Value::Int(6)),
    ]));
    assert_eq!(session.ask(&after(1, 5), MOST_STEPS).steps, 1);
    assert_eq!(session.ask(&after(0, 5), MOST_STEPS).steps, 1);
    // Node 2 leads nowhere: its own step is counted, and nothing is kept for it.
    let answer = session.ask(&after(2, 5), MOST_STEPS);
    assert_eq!(answer.to_string(), "14 0 0 0 2 4");
}

#[test]
fn a_faulty_forward_is_refused_at_its_place() {
    // The forward is at offset 36, and has its kind and its expression behind it.
    let refusal = |at: usize, byte: u8| {
        let mut sheet = FORWARDED;
        sheet[at] = byte;
        Sheet::check(&sheet).expect_err("a refused sheet")
    };
    for (at, byte, stop, place) in [
        (37, 16, Stop::Operand, 36),
        (38, 0, Stop::RuleForm, 36),
        (42, 0x31, Stop::RuleForm, 36),
        (43, 0x30, Stop::RuleType, 36),
        // Node 1 without a forward of its kind has no attribute 0.
        (37, 2, Stop::NoDefinition, 32),
    ] {
        assert_eq!(refusal(at, byte), stop.at(place), "{at} {byte}");
    }
    let again = [&FORWARDED[..44], &FORWARDED[36..]].concat();
    let refusal = Sheet::check(&again).expect_err("a second forward");
    assert_eq!(
        refusal.to_string(),
        "stop 5 at byte 44: a second figure for one node and attribute, a second rule for one kind and attribute, or a second forward for one kind"
    );
}

#[test]
fn a_refused_question_leaves_the_session_as_it_was() {
    let sheet = Sheet::check(&ONE_MORE).expect("an accepted sheet");
    let mut store = Store::with_capacity(8);
    let mut session = Session::open(&sheet, &mut store).expect("an empty store");
    let _ = session.ask(&after(1), MOST_STEPS);
    let before = session.store().clone();
    for (question, budget, stop) in [
        (after(2), MOST_STEPS + 1, Stop::Budget),
        (vec![], 9, Stop::QuestionForm),
        (vec![0x14, 0], 9, Stop::QuestionType),
    ] {
        let answer = session.ask(&question, budget);
        assert_eq!(answer.value, Err(stop.at(0)));
        assert_eq!((answer.steps, answer.kept), (0, 1));
        assert_eq!(answer.tally, Tally::default());
        assert_eq!(stop.origin(), Origin::Asker);
        assert_eq!(*session.store(), before);
    }
    assert_eq!(session.ask(&after(1), 1).steps, 1);
}

#[test]
fn the_ways_of_asking_agree() {
    let mut scratch = Scratch::new();
    let mut stores = [[7; 24]; 3];
    let mut kept = 0;
    for question in [after(3), after(4), vec![0x30], after(3), after(5)] {
        let [first, second, third] = stores.each_mut().map(|store| Call {
            store,
            kept,
            ..within(&ONE_MORE, &question, 9)
        });
        let first = ask(first);
        assert_eq!(first, ask_cleared(second));
        assert_eq!(first, scratch.ask(third));
        assert!(stores.iter().all(|store| *store == stores[0]));
        kept = first.kept;
    }
    assert_eq!(kept, 2);
}

#[test]
fn a_call_refused_before_its_run_is_refused_by_the_check() {
    let cut = &ONE_MORE[..20];
    let refusal = Stop::Command.at(20);
    let question = after(0);
    assert_eq!(check(&within(cut, &question, 9)), Err(refusal));
    assert_eq!(ask(within(cut, &question, 9)).value, Err(refusal));
    assert_eq!(check(&within(&ONE_MORE, &question, 9)), Ok(()));
    // What only the run can find is no matter for the check.
    assert_eq!(check(&within(&ONE_MORE, &question, 2)), Ok(()));
    let spent = ask(within(&ONE_MORE, &question, 2));
    assert_eq!(spent.to_string(), "15 0 0 0 2 0");
    assert_eq!(spent.tally, tally(1, 1));
}

#[test]
fn a_number_kept_above_every_capacity_comes_back_as_it_was_lent() {
    let answer = ask(Call {
        kept: u64::MAX,
        ..within(&ONE_MORE, &after(0), 9)
    });
    assert_eq!(answer.kept, u64::MAX);
    assert_eq!(answer.fields(), [9, 0, 0, 0, 0, -1]);
}

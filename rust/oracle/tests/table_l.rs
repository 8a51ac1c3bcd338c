//! Document 01, "Sheet L and its questions": L1 to L13 with their tallies (document 02, F-2, F-4 and F-9), and sheet LF, which is L with a forward
//! (document 02, F-7), from bytes written out by hand.
//! `rust/trials` puts many more cases to the evaluator.

use oracle::ask::{ask, read_question};
use oracle::plain::{self, Circle, Ending, Watched};
use oracle::sheet::Sheet;
use oracle::stop::Reason;
use oracle::store::Occurrence;
use oracle::values::Value;

const MOST: u64 = 1_000_000;

const SHEET_L: [u8; 103] = [
    0x41, 3, 0, 0x41, 2, 0, 0x41, 2,
    0, // up: a Node; own and dial: Ints; each without parameter
    0x4E, 0, 0x4E, 1, 0x4E, 1, // node 0 of kind 0, nodes 1 and 2 of kind 1
    0x56, 0, 0, 0, 0xFF, 0xFF, 0, 0, // node 0: up is null,
    0x56, 0, 0, 1, 0xBC, 0x02, 0, 0, // own is 700
    0x56, 1, 0, 0, 0, 0, 0, 0, // node 1: up is node 0,
    0x56, 1, 0, 1, 0, 0, 0, 0, // own is 0
    0x56, 2, 0, 0, 0, 0, 0, 0, // node 2: up is node 0,
    0x56, 2, 0, 1, 0x2B, 0x03, 0, 0, // own is 811
    0x52, 0, 2, 4, 0, // kind 0's dial:
    0x22, 1, 0x30, 0x10, // own of this node
    0x52, 1, 2, 25, 0, // kind 1's dial: IF equal(own)(0) THEN up.dial ELSE own
    0x20, 0x21, 0x21, 0x14, 1, 0x22, 1, 0x30, 0x10, 0x12, 0, 0, 0, 0, //
    0x22, 2, 0x22, 0, 0x30, 0x10, 0x10, //
    0x22, 1, 0x30, 0x10, //
    0x5A,
];
/// One node, and one attribute defined as itself.
const SHEET_L12: [u8; 15] = [
    0x41, 2, 0, 0x4E, 0, 0x52, 0, 0, 4, 0, 0x22, 0, 0x30, 0x10, 0x5A,
];
/// Sheet L, with a node 3 of kind 2, whose up is node 1; for kind 2, a forward to this node's up.
const SHEET_LF: [u8; 121] = [
    0x41, 3, 0, 0x41, 2, 0, 0x41, 2, 0, // up: a Node; own and dial: Ints
    0x4E, 0, 0x4E, 1, 0x4E, 1, 0x4E, 2, // node 3 of kind 2
    0x56, 0, 0, 0, 0xFF, 0xFF, 0, 0, // node 0: up is null,
    0x56, 0, 0, 1, 0xBC, 0x02, 0, 0, // own is 700
    0x56, 1, 0, 0, 0, 0, 0, 0, // node 1: up is node 0,
    0x56, 1, 0, 1, 0, 0, 0, 0, // own is 0
    0x56, 2, 0, 0, 0, 0, 0, 0, // node 2: up is node 0,
    0x56, 2, 0, 1, 0x2B, 0x03, 0, 0, // own is 811
    0x56, 3, 0, 0, 1, 0, 0, 0, // node 3: up is node 1
    0x52, 0, 2, 4, 0, // kind 0's dial:
    0x22, 1, 0x30, 0x10, // own of this node
    0x52, 1, 2, 25, 0, // kind 1's dial: IF equal(own)(0) THEN up.dial ELSE own
    0x20, 0x21, 0x21, 0x14, 1, 0x22, 1, 0x30, 0x10, 0x12, 0, 0, 0, 0, //
    0x22, 2, 0x22, 0, 0x30, 0x10, 0x10, //
    0x22, 1, 0x30, 0x10, //
    0x46, 2, 4, 0, // kind 2's forward:
    0x22, 0, 0x30, 0x10, // up of this node
    0x5A,
];
const D: [u8; 6] = [0x22, 2, 0x13, 1, 0, 0x10];
const DIAL_2: [u8; 6] = [0x22, 2, 0x13, 2, 0, 0x10];
const L6: [u8; 16] = [
    0x21, 0x21, 0x14, 1, 0x22, 2, 0x13, 1, 0, 0x10, 0x22, 2, 0x13, 1, 0, 0x10,
];
const L10: [u8; 9] = [0x22, 1, 0x22, 0, 0x13, 0, 0, 0x10, 0x10];
const L12: [u8; 6] = [0x22, 0, 0x13, 0, 0, 0x10];
const L13: [u8; 14] = [
    0x21, 0x21, 0x14, 4, 0x12, 0xFF, 0xFF, 0xFF, 0x7F, 0x12, 1, 0, 0, 0,
];

/// The answer with an empty store of a capacity.
fn asked(sheet: &[u8], capacity: usize, question: &[u8], budget: u64) -> [i64; 6] {
    ask(sheet, &mut vec![0; 12 * capacity], 0, question, budget).fields()
}

#[test]
fn l1_l4_and_the_lines_of_the_report_program() {
    let mut store = [0; 12 * 1_024];
    let mut kept = 0;
    let mut put = |question: &[u8]| {
        let answer = ask(&SHEET_L, &mut store, kept, question, MOST);
        kept = answer.kept as u64;
        answer.fields()
    };
    assert_eq!(put(&D), [0, 0, 2, 700, 8, 5]);
    assert_eq!(put(&D), [0, 0, 2, 700, 1, 5]);
    assert_eq!(put(&DIAL_2), [0, 0, 2, 811, 6, 7]);
    assert_eq!(put(&L10), [14, 0, 0, 0, 1, 8]);
    let five = [
        [1, 0, 1, 2, 0, 0, 0, 0, 0, 0, 0, 0],
        [1, 0, 0, 3, 0, 0, 0, 0, 0, 0, 0, 0],
        [0, 0, 1, 2, 0, 0, 0, 0, 0xBC, 0x02, 0, 0],
        [0, 0, 2, 2, 0, 0, 0, 0, 0xBC, 0x02, 0, 0],
        [1, 0, 2, 2, 0, 0, 0, 0, 0xBC, 0x02, 0, 0],
    ];
    assert_eq!(store[..60], five.concat());
}

#[test]
fn l2_l3_and_l5_to_l13() {
    assert_eq!(asked(&SHEET_L, 1_024, &D, 7), [15, 0, 0, 0, 7, 2]);
    assert_eq!(asked(&SHEET_L, 1_024, &D, 8), [0, 0, 2, 700, 8, 5]);
    assert_eq!(asked(&SHEET_L, 1_024, &DIAL_2, MOST), [0, 0, 2, 811, 6, 2]);
    for (capacity, steps, kept) in [(1_024, 11, 5), (0, 18, 0), (4, 17, 4), (5, 11, 5)] {
        let given = asked(&SHEET_L, capacity, &L6, MOST);
        assert_eq!(given, [0, 0, 1, 1, steps, kept]);
    }
    assert_eq!(asked(&SHEET_L, 1_024, &L10, MOST), [14, 0, 0, 0, 1, 1]);
    let five = [0x12, 5, 0, 0, 0];
    assert_eq!(asked(&SHEET_L, 1_024, &five, 0), [0, 0, 2, 5, 0, 0]);
    // "Case L12 now stops after 1 step when the budget is 1 or more", and "case L13 now stops after 1 step": 20 and 17, where a budget lets
    // them come so far.
    for (sheet, question, number) in [(&SHEET_L12[..], &L12[..], 20), (&SHEET_L, &L13, 17)] {
        assert_eq!(asked(sheet, 1_024, question, 0), [15, 0, 0, 0, 0, 0]);
        for budget in [1, 2, 64, 65, MOST] {
            let given = asked(sheet, 1_024, question, budget);
            assert_eq!(given, [number, 0, 0, 0, 1, 0]);
        }
    }
}

/// The tally of some steps of up, own and dial, AppApp, and CondTrue with CondFalse. No other row has any.
fn tally([up, own, dial, applications, conditions]: [u64; 5]) -> [u64; 34] {
    let mut rows = [0; 34];
    rows[..3].copy_from_slice(&[up, own, dial]);
    rows[32..].copy_from_slice(&[applications, conditions]);
    rows
}

#[test]
fn the_tallies_of_l1_to_l13() {
    // L1, and L4 in the store that it left.
    let mut store = [0; 12 * 1_024];
    let l1 = ask(&SHEET_L, &mut store, 0, &D, MOST);
    assert_eq!(l1.tally, tally([1, 2, 2, 2, 1]));
    let l4 = ask(&SHEET_L, &mut store, l1.kept as u64, &D, MOST);
    assert_eq!(l4.tally, tally([0, 0, 1, 0, 0]));
    let tallies = |sheet: &[u8], capacity: usize, question: &[u8], budget, rows| {
        let given = ask(sheet, &mut vec![0; 12 * capacity], 0, question, budget);
        assert_eq!(given.tally, tally(rows), "{question:?}, {capacity}");
        assert_eq!(given.tally.iter().sum::<u64>(), given.steps as u64);
    };
    // L2, L3
    tallies(&SHEET_L, 1_024, &D, 7, [1, 1, 2, 2, 1]);
    tallies(&SHEET_L, 1_024, &D, 8, [1, 2, 2, 2, 1]);
    // L5
    tallies(&SHEET_L, 1_024, &DIAL_2, MOST, [0, 2, 1, 2, 1]);
    // L6 to L9
    tallies(&SHEET_L, 1_024, &L6, MOST, [1, 2, 3, 4, 1]);
    tallies(&SHEET_L, 0, &L6, MOST, [2, 4, 4, 6, 2]);
    tallies(&SHEET_L, 4, &L6, MOST, [2, 3, 4, 6, 2]);
    tallies(&SHEET_L, 5, &L6, MOST, [1, 2, 3, 4, 1]);
    // L10, L11
    tallies(&SHEET_L, 1_024, &L10, MOST, [1, 0, 0, 0, 0]);
    tallies(&SHEET_L, 1_024, &[0x12, 5, 0, 0, 0], 0, [0; 5]);
    // L12, whose sheet has one attribute
    tallies(&SHEET_L12, 1_024, &L12, 0, [0; 5]);
    tallies(&SHEET_L12, 1_024, &L12, MOST, [1, 0, 0, 0, 0]);
    // L13
    tallies(&SHEET_L, 1_024, &L13, MOST, [0, 0, 0, 1, 0]);
}

#[test]
fn the_empty_sheet_and_the_shortest() {
    assert_eq!(asked(&[], 1_024, &[0x10], MOST), [2, 0, 0, 0, 0, 0]);
    assert_eq!(asked(&[0x5A], 1_024, &[0x10], MOST), [0; 6]);
}

#[test]
fn plain_saiga_keeps_nothing() {
    let ending = |sheet: &[u8], question: &[u8], limit| watched(sheet, question, limit).ending;
    let seven_hundred = Ending::Value(Value::Int(700), 8);
    assert_eq!(ending(&SHEET_L, &D, 1_000), seven_hundred);
    let equal = Ending::Value(Value::Bool(true), 18);
    assert_eq!(ending(&SHEET_L, &L6, 1_000), equal);
    assert_eq!(ending(&SHEET_L12, &L12, 1_000), Ending::Running(1_000));
    // Null and overflow end it uncounted.
    for (question, ended) in [(&L10[..], Ending::Null(1)), (&L13, Ending::Overflow(1))] {
        assert_eq!(ending(&SHEET_L, question, 1_000), ended);
        assert_eq!(ending(&SHEET_L, question, 1), ended);
        assert_eq!(ending(&SHEET_L, question, 0), Ending::Running(0));
    }
}

/// Plain Saiga watched for so many steps.
fn watched(sheet: &[u8], question: &[u8], limit: u64) -> Watched {
    let sheet = Sheet::read(sheet).expect("an accepted sheet");
    let question = read_question(question, &sheet).expect("an accepted question");
    plain::watch(&sheet, &question, limit)
}

#[test]
fn plain_saiga_comes_to_a_circle_where_it_runs_for_ever() {
    // "Some occurrence comes due inside its own evaluation": after its first step, and before the second is counted.
    let circle = Circle {
        occurrence: Occurrence {
            node: 0,
            attribute: 0,
            parameter: Value::Unit,
        },
        steps: 1,
    };
    for limit in [1, 1_000] {
        let for_ever = Watched {
            ending: Ending::Running(limit),
            circle: Some(circle),
        };
        assert_eq!(watched(&SHEET_L12, &L12, limit), for_ever);
    }
    assert_eq!(watched(&SHEET_L12, &L12, 0).circle, None);
    // L6 has D due twice, the second time where the first is a value.
    for question in [&D[..], &L6, &L10, &L13] {
        let ended = watched(&SHEET_L, question, 1_000);
        assert!(ended.ending.n().is_some());
        assert_eq!(ended.circle, None);
    }
}

/// What an attribute of a node of sheet LF brings from an empty store: type, value, steps, the steps of up, own and dial, AppApp, and CondTrue with
/// CondFalse, and the entries left, each node, attribute, type and value, which fits into two bytes.
struct OfLf {
    attribute: u8,
    node: u8,
    typ: i64,
    value: i64,
    rows: [u64; 5],
    left: &'static [(u8, u8, u8, u16)],
}

/// Every question of sheet LF. The forwarded ones are own and dial of node 3: that of node 1, with two steps more.
const QUESTIONS_LF: [OfLf; 12] = {
    const fn row(
        [attribute, node]: [u8; 2],
        [typ, value]: [i64; 2],
        rows: [u64; 5],
        left: &'static [(u8, u8, u8, u16)],
    ) -> OfLf {
        OfLf {
            attribute,
            node,
            typ,
            value,
            rows,
            left,
        }
    }
    [
        row([0, 0], [3, 65_535], [1, 0, 0, 0, 0], &[(0, 0, 3, 65_535)]),
        row([0, 1], [3, 0], [1, 0, 0, 0, 0], &[(1, 0, 3, 0)]),
        row([0, 2], [3, 0], [1, 0, 0, 0, 0], &[(2, 0, 3, 0)]),
        row([0, 3], [3, 1], [1, 0, 0, 0, 0], &[(3, 0, 3, 1)]),
        row([1, 0], [2, 700], [0, 1, 0, 0, 0], &[(0, 1, 2, 700)]),
        row([1, 1], [2, 0], [0, 1, 0, 0, 0], &[(1, 1, 2, 0)]),
        row([1, 2], [2, 811], [0, 1, 0, 0, 0], &[(2, 1, 2, 811)]),
        row(
            [1, 3],
            [2, 0],
            [1, 2, 0, 0, 0],
            &[(3, 0, 3, 1), (1, 1, 2, 0), (3, 1, 2, 0)],
        ),
        row(
            [2, 0],
            [2, 700],
            [0, 1, 1, 0, 0],
            &[(0, 1, 2, 700), (0, 2, 2, 700)],
        ),
        row(
            [2, 1],
            [2, 700],
            [1, 2, 2, 2, 1],
            &[
                (1, 1, 2, 0),
                (1, 0, 3, 0),
                (0, 1, 2, 700),
                (0, 2, 2, 700),
                (1, 2, 2, 700),
            ],
        ),
        row(
            [2, 2],
            [2, 811],
            [0, 2, 1, 2, 1],
            &[(2, 1, 2, 811), (2, 2, 2, 811)],
        ),
        row(
            [2, 3],
            [2, 700],
            [2, 2, 3, 2, 1],
            &[
                (3, 0, 3, 1),
                (1, 1, 2, 0),
                (1, 0, 3, 0),
                (0, 1, 2, 700),
                (0, 2, 2, 700),
                (1, 2, 2, 700),
                (3, 2, 2, 700),
            ],
        ),
    ]
};

#[test]
fn every_question_of_sheet_lf() {
    for OfLf {
        attribute,
        node,
        typ,
        value,
        rows,
        left,
    } in QUESTIONS_LF
    {
        let question = [0x22, attribute, 0x13, node, 0, 0x10];
        let steps = rows.iter().sum::<u64>();
        let entries: Vec<u8> = left
            .iter()
            .flat_map(|&(node, attribute, code, value)| {
                let [low, high] = value.to_le_bytes();
                [node, 0, attribute, code, 0, 0, 0, 0, low, high, 0, 0]
            })
            .collect();
        let mut store = [0xEE; 12 * 1_024];
        let answer = ask(&SHEET_LF, &mut store, 0, &question, steps);
        let kept = left.len() as i64;
        let fields = [0, 0, typ, value, steps as i64, kept];
        assert_eq!(answer.fields(), fields, "{question:?}");
        assert_eq!(answer.tally, tally(rows), "{question:?}");
        assert_eq!(store[..entries.len()], entries, "{question:?}");
        assert!(store[entries.len()..].iter().all(|byte| *byte == 0xEE));
        // Plain Saiga keeps nothing. All that is due twice is node 2's own, a figure: one step, kept or not.
        let plain = watched(&SHEET_LF, &question, 1_000);
        assert_eq!(plain.circle, None);
        let Ending::Value(plain, n) = plain.ending else {
            panic!("{question:?}: {plain:?}");
        };
        assert_eq!((plain.number(), n), (value, steps), "{question:?}");
        // One step fewer, and nothing for the occurrence that is asked.
        let answer = ask(&SHEET_LF, &mut store, 0, &question, steps - 1);
        let stopped = [15, 0, 0, 0, steps as i64 - 1];
        assert_eq!(answer.fields()[..5], stopped, "{question:?}");
        assert!(answer.kept < kept, "{question:?}");
    }
}

#[test]
fn a_stop_of_each_origin_has_its_number_and_place() {
    // Node 2's own is said twice.
    let twice = [&SHEET_L[..63], &SHEET_L[55..]].concat();
    let stop = Sheet::read(&twice).expect_err("a second figure");
    assert_eq!((stop.reason, stop.place), (Reason::SecondDefinition, 63));
    assert_eq!(asked(&twice, 0, &D, MOST), [5, 63, 0, 0, 0, 0]);
    let no_node = &mut [3, 0, 1, 0, 0, 0, 0, 0, 0, 0, 0, 0];
    let given = ask(&SHEET_L, no_node, 1, &D, MOST).fields();
    assert_eq!(given, [10, 0, 0, 0, 0, 1]);
    // Kind 2's forward is said twice.
    let twice = [&SHEET_LF[..120], &SHEET_LF[112..]].concat();
    assert_eq!(asked(&twice, 0, &D, MOST), [5, 120, 0, 0, 0, 0]);
    assert_eq!(asked(&SHEET_L, 0, &D, MOST + 1), [11, 0, 0, 0, 0, 0]);
    assert_eq!(asked(&SHEET_L, 0, &[0x30], MOST), [12, 0, 0, 0, 0, 0]);
    assert_eq!(asked(&SHEET_L, 0, &[0x14, 0], MOST), [13, 0, 0, 0, 0, 0]);
}

#[test]
fn stops_have_the_documents_numbers() {
    let in_order = [
        Reason::SheetLength,
        Reason::Command,
        Reason::TooMany,
        Reason::Operand,
        Reason::SecondDefinition,
        Reason::RuleForm,
        Reason::RuleType,
        Reason::NoDefinition,
        Reason::StoreShape,
        Reason::StoreEntry,
        Reason::Budget,
        Reason::QuestionForm,
        Reason::QuestionType,
        Reason::Null,
        Reason::Spent,
        Reason::Depth,
        Reason::Overflow,
    ];
    for (number, reason) in (1..).zip(in_order) {
        assert_eq!(reason as i64, number);
    }
    assert_eq!(Reason::Circle as i64, 20);
}

//! Drafts write document 01's bytes.

use sofretu::build::{if_, this, Attribute, Draft, Expression, Kind, Node, Question, NULL};
use sofretu::{Session, Sheet, Store, Type, Value, MOST_STEPS};

/// Sheet L of document 01.
const SHEET_L: [u8; 103] = [
    0x41, 3, 0, 0x41, 2, 0, 0x41, 2, 0, // up, own and dial
    0x4E, 0, 0x4E, 1, 0x4E, 1, // nodes 0 to 2
    0x56, 0, 0, 0, 0xFF, 0xFF, 0, 0, 0x56, 0, 0, 1, 0xBC, 0x02, 0, 0, // node 0
    0x56, 1, 0, 0, 0, 0, 0, 0, 0x56, 1, 0, 1, 0, 0, 0, 0, // node 1
    0x56, 2, 0, 0, 0, 0, 0, 0, 0x56, 2, 0, 1, 0x2B, 0x03, 0, 0, // node 2
    0x52, 0, 2, 4, 0, 0x22, 1, 0x30, 0x10, // kind 0's dial
    0x52, 1, 2, 25, 0, 0x20, 0x21, 0x21, 0x14, 1, 0x22, 1, 0x30, 0x10, 0x12, 0, 0, 0, 0, 0x22, 2,
    0x22, 0, 0x30, 0x10, 0x10, 0x22, 1, 0x30, 0x10, // kind 1's dial
    0x5A,
];

/// What docs/STOPS.md's sheet LF has besides: node 3 of kind 2, its up, and the forward of kind 2.
const NODE_3: [u8; 2] = [0x4E, 2];
const UP_OF_3: [u8; 8] = [0x56, 3, 0, 0, 1, 0, 0, 0];
const FORWARD: [u8; 8] = [0x46, 2, 4, 0, 0x22, 0, 0x30, 0x10];

/// The declarations of sheet L.
struct Estate {
    draft: Draft,
    up: Attribute,
    own: Attribute,
    dial: Attribute,
    building: Kind,
    car: Kind,
    nodes: [Node; 3],
}

/// A step in writing a sheet.
type Step = fn(&mut Estate) -> &mut Draft;

/// The definitions of sheet L.
const DEFINITIONS: [Step; 8] = [
    |l| l.draft.figure(l.nodes[0], l.up, NULL),
    |l| l.draft.figure(l.nodes[0], l.own, 700),
    |l| l.draft.figure(l.nodes[1], l.up, l.nodes[0]),
    |l| l.draft.figure(l.nodes[1], l.own, 0),
    |l| l.draft.figure(l.nodes[2], l.up, l.nodes[0]),
    |l| l.draft.figure(l.nodes[2], l.own, 811),
    |l| l.draft.rule(l.building, l.dial, l.own.of(this())),
    |l| {
        let own = l.own.of(this());
        let inherited = l.dial.of(l.up.of(this()));
        l.draft
            .rule(l.car, l.dial, if_(own.clone().equal(0), inherited, own))
    },
];

fn declared() -> Estate {
    let mut draft = Draft::new();
    let (building, car) = (draft.kind("building"), draft.kind("car"));
    Estate {
        up: draft.attribute("up", Type::Node),
        own: draft.attribute("own", Type::Int),
        dial: draft.attribute("dial", Type::Int),
        nodes: [
            draft.node("house 5", building),
            draft.node("left", car),
            draft.node("right", car),
        ],
        building,
        car,
        draft,
    }
}

fn sheet_l() -> Estate {
    let mut estate = declared();
    for define in DEFINITIONS {
        define(&mut estate);
    }
    estate
}

/// The answer of a sheet to a question, as six fields.
fn answer(sheet: &Sheet, question: impl Into<Question>) -> String {
    let mut session = Session::open(sheet, Store::default()).expect("an empty store");
    session.ask(&question.into(), MOST_STEPS).to_string()
}

#[test]
fn sheet_l_has_its_103_bytes() {
    let l = sheet_l();
    assert_eq!(l.draft.bytes(), SHEET_L);
    let sheet = l.draft.build().expect("an accepted sheet");
    assert_eq!(sheet.bytes(), SHEET_L);
    let [house, left, right] = l.nodes;
    assert_eq!(answer(&sheet, l.dial.of(left)), "0 0 2 700 8 5");
    assert_eq!(answer(&sheet, l.dial.of(right)), "0 0 2 811 6 2");
    assert_eq!(answer(&sheet, l.own.of(l.up.of(house))), "14 0 0 0 1 1");
    let d = l.dial.of(left);
    assert_eq!(answer(&sheet, d.clone().equal(d)), "0 0 1 1 11 5");
    assert_eq!(answer(&sheet, 5), "0 0 2 5 0 0");
}

#[test]
fn sheet_lf_is_sheet_l_with_a_forward() {
    let mut l = sheet_l();
    let handset = l.draft.kind("handset");
    let phone = l.draft.node("phone", handset);
    l.draft.forward(handset, l.up.of(this()));
    l.draft.figure(phone, l.up, l.nodes[1]);
    let (declarations, rest) = SHEET_L.split_at(15);
    let (figures, rest) = rest.split_at(48);
    let (rules, end) = rest.split_at(39);
    let expected = [
        declarations,
        &NODE_3,
        figures,
        &UP_OF_3,
        rules,
        &FORWARD,
        end,
    ];
    assert_eq!(l.draft.bytes(), expected.concat());
    let sheet = l.draft.build().expect("an accepted sheet");
    assert_eq!(answer(&sheet, l.dial.of(phone)), "0 0 2 700 10 7");
}

#[test]
fn definitions_in_any_order_give_the_same_bytes() {
    // Every order, by Heap's algorithm.
    fn orders(order: &mut [Step], length: usize, each: &mut impl FnMut(&[Step])) {
        if length < 2 {
            return each(order);
        }
        for turn in 0..length {
            orders(order, length - 1, each);
            let other = if length.is_multiple_of(2) { turn } else { 0 };
            order.swap(other, length - 1);
        }
    }
    let mut tried = 0;
    orders(&mut { DEFINITIONS }, DEFINITIONS.len(), &mut |order| {
        let mut estate = declared();
        for define in order {
            define(&mut estate);
        }
        assert_eq!(estate.draft.bytes(), SHEET_L);
        tried += 1;
    });
    assert_eq!(tried, 40_320);
}

#[test]
fn declarations_and_definitions_can_be_mixed() {
    let mut draft = Draft::new();
    let (lobby, shaft) = (draft.kind("lobby"), draft.kind("shaft"));
    let first = draft.node("first", lobby);
    let level = draft.attribute_with("level", Type::Int, Type::Bool);
    draft
        .forward(shaft, first)
        .forward(lobby, this())
        .rule(lobby, level, 7)
        .figure(first, level, 8);
    let open = draft.attribute("open", Type::Bool);
    let second = draft.node("second", lobby);
    draft
        .figure(second, open, true)
        .figure(first, open, false)
        .rule(lobby, open, !Expression::from(false));
    let expected = [
        &[0x41, 2, 1, 0x41, 1, 0, 0x4E, 0, 0x4E, 0][..],
        &[0x56, 0, 0, 0, 8, 0, 0, 0, 0x56, 0, 0, 1, 0, 0, 0, 0],
        &[0x56, 1, 0, 1, 1, 0, 0, 0],
        &[0x52, 0, 0, 5, 0, 0x12, 7, 0, 0, 0],
        &[0x52, 0, 1, 5, 0, 0x21, 0x14, 3, 0x11, 0],
        &[0x46, 0, 1, 0, 0x30, 0x46, 1, 3, 0, 0x13, 0, 0, 0x5A],
    ];
    assert_eq!(draft.bytes(), expected.concat());
    let sheet = draft.build().expect("an accepted sheet");
    assert_eq!(answer(&sheet, level.of_with(second, true)), "0 0 2 7 1 1");
    assert_eq!((level.number(), open.number()), (0, 1));
    assert_eq!((first.number(), second.number(), lobby.number()), (0, 1, 0));
}

#[test]
fn an_empty_draft_is_the_shortest_sheet() {
    let draft = Draft::default();
    assert_eq!(draft.bytes(), [0x5A]);
    assert_eq!(draft.build().expect("an accepted sheet").nodes(), 0);
}

#[test]
fn figures_have_four_bytes_of_their_type() {
    let mut draft = Draft::new();
    let kind = draft.kind("kind");
    let [first, second] = ["first", "second"].map(|name| draft.node(name, kind));
    let types = [Type::Unit, Type::Bool, Type::Int, Type::Node];
    let [unit, truth, int, node] = types.map(|typ| draft.attribute(typ.to_string(), typ));
    draft
        .figure(first, unit, ())
        .figure(second, unit, Value::Unit);
    draft
        .figure(first, truth, true)
        .figure(second, truth, false);
    draft.figure(first, int, -2).figure(second, int, i32::MAX);
    draft.figure(first, node, second).figure(second, node, NULL);
    let sheet = draft.build().expect("an accepted sheet");
    let words: Vec<&[u8]> = sheet.bytes()[16..80]
        .chunks(8)
        .map(|figure| &figure[4..])
        .collect();
    let expected = [
        [0, 0, 0, 0],
        [1, 0, 0, 0],
        [254, 255, 255, 255],
        [1, 0, 0, 0],
        [0, 0, 0, 0],
        [0, 0, 0, 0],
        [255, 255, 255, 127],
        [255, 255, 0, 0],
    ];
    assert_eq!(words, expected);
}

//! What the library refuses of a draft is told by the draft's own names.

use sofretu::build::{
    if_, parameter, this, Attribute, Draft, Expression, Function, Kind, Node, Question,
};
use sofretu::{Refusal, Sheet, Stop, Type};

/// A draft is refused so, in these words; and its bytes are refused so by themselves.
#[track_caller]
fn refused(draft: &Draft, refusal: Refusal, place: &str) {
    let error = draft.build().expect_err("a refused draft");
    assert_eq!((error.refusal, &*error.place), (refusal, place));
    assert_eq!(error.to_string(), format!("{place}: {refusal}"));
    let bytes = draft.bytes();
    assert_eq!(Sheet::check(&bytes).expect_err("refused bytes"), refusal);
}

/// A draft with an Int attribute `dial` and one node, `house 5` of kind `car`. Its definitions begin at byte 5.
fn house() -> (Draft, Attribute, Kind, Node) {
    let mut draft = Draft::new();
    let dial = draft.attribute("dial", Type::Int);
    let car = draft.kind("car");
    let house = draft.node("house 5", car);
    (draft, dial, car, house)
}

/// That draft with what is written into it.
fn with(write: impl FnOnce(&mut Draft, Attribute, Kind, Node) -> &mut Draft) -> Draft {
    let (mut draft, dial, car, house) = house();
    write(&mut draft, dial, car, house);
    draft
}

/// A draft with a Node attribute `up` and one node, `house 5`, whose up is this one.
fn leading_to(node: impl FnOnce(&mut Draft, Kind) -> Node) -> Draft {
    let mut draft = Draft::new();
    let up = draft.attribute("up", Type::Node);
    let car = draft.kind("car");
    let house = draft.node("house 5", car);
    let node = node(&mut draft, car);
    draft.figure(house, up, node);
    draft
}

#[test]
fn too_many_bytes_are_stop_1() {
    let (mut draft, dial, car, _) = house();
    let long = (0..14).fold(this(), |long, _| long.clone().equal(long));
    assert!(long.bytes().len() > 65_536);
    // Two bytes cannot say the length of this rule, or of this question.
    assert_eq!(Question::from(long.clone()).framed()[..2], [0xFF, 0xFF]);
    assert_eq!(Question::from(long.clone()).framed().len(), 65_537);
    draft.rule(car, dial, long);
    refused(&draft, Stop::SheetLength.into(), "the sheet");
}

#[test]
fn an_attribute_or_a_node_too_many_is_stop_3() {
    for attributes in [33, 300] {
        let mut draft = Draft::new();
        for number in 0..attributes {
            draft.attribute(format!("a{number}"), Type::Int);
        }
        refused(&draft, Stop::TooMany.at(96), "attribute `a32`");
    }
    for (nodes, stop, place) in [
        (1_025, Stop::TooMany.at(2_048), "node `n1024` of kind `car`"),
        (9_999, Stop::TooMany.at(2_048), "node `n1024` of kind `car`"),
        (70_000, Stop::SheetLength.into(), "the sheet"),
    ] {
        let mut draft = Draft::new();
        let car = draft.kind("car");
        for number in 0..nodes {
            let node = draft.node(format!("n{number}"), car);
            assert_eq!(node.number(), number.min(65_534) as u16);
        }
        refused(&draft, stop, place);
    }
}

#[test]
fn a_kind_too_many_is_stop_4_where_it_is_used() {
    for place in [15, 16, 399] {
        let mut draft = Draft::new();
        let kinds: Vec<Kind> = (0..400)
            .map(|number| draft.kind(format!("k{number}")))
            .collect();
        let (kind, stop) = (kinds[place], |at| Stop::Operand.at(at));
        assert_eq!(usize::from(kind.number()), place.min(255));
        let up = draft.attribute("up", Type::Node);
        let build = |draft: &Draft, at, words: String| match place {
            15 => assert!(draft.build().is_ok()),
            _ => refused(draft, stop(at), &words),
        };
        draft.forward(kind, this());
        build(&draft, 3, format!("forward of kind `k{place}`"));
        draft.rule(kind, up, this());
        build(
            &draft,
            3,
            format!("rule for attribute `up` of kind `k{place}`"),
        );
        draft.node("shaft", kind);
        build(&draft, 3, format!("node `shaft` of kind `k{place}`"));
    }
}

#[test]
fn a_figure_of_another_type_is_stop_4() {
    let types = [Type::Unit, Type::Bool, Type::Int, Type::Node];
    for wanted in types {
        for found in types {
            let mut draft = Draft::new();
            let setting = draft.attribute("setting", wanted);
            let car = draft.kind("car");
            let house = draft.node("house 5", car);
            match found {
                Type::Unit => draft.figure(house, setting, ()),
                Type::Bool => draft.figure(house, setting, true),
                Type::Int => draft.figure(house, setting, 0),
                Type::Node => draft.figure(house, setting, house),
            };
            if wanted == found {
                assert!(draft.build().is_ok());
                continue;
            }
            let words = format!(
                "figure of attribute `setting` of node `house 5`, of type {found} where attribute `setting` is of type {wanted}"
            );
            refused(&draft, Stop::Operand.at(5), &words);
        }
    }
}

#[test]
fn what_is_not_declared_is_told_by_its_number() {
    let operand = Stop::Operand.at(5);
    let draft = with(|draft, dial, _, _| draft.figure(Node::numbered(9), dial, 1));
    refused(&draft, operand, "figure of attribute `dial` of node 9");
    let seven = Attribute::numbered(7);
    let draft = with(|draft, _, _, house| draft.figure(house, seven, 1));
    refused(&draft, operand, "figure of attribute 7 of node `house 5`");
    let draft = with(|draft, _, car, _| draft.rule(car, seven, 1));
    refused(&draft, operand, "rule for attribute 7 of kind `car`");
    let draft = with(|draft, dial, car, _| draft.rule(car, dial, seven.of(this())));
    let words = "rule for attribute `dial` of kind `car`";
    refused(&draft, Stop::RuleForm.at(5), words);
    for (number, written) in [(1, 1), (65_534, 65_534), (65_535, 65_534)] {
        let draft = leading_to(|_, _| Node::numbered(number));
        let words = format!("figure of attribute `up` of node `house 5`, with node {written}");
        refused(&draft, operand, &words);
    }
    // A number that is declared is as good as a handle.
    let draft = with(|draft, _, car, _| draft.rule(car, Attribute::numbered(0), 7));
    assert!(draft.build().is_ok());
}

#[test]
fn a_second_definition_is_stop_5() {
    let second = |place| Stop::SecondDefinition.at(place);
    let draft = with(|draft, dial, _, house| draft.figure(house, dial, 1).figure(house, dial, 1));
    let words = "figure of attribute `dial` of node `house 5`";
    refused(&draft, second(13), words);
    let draft = with(|draft, dial, car, _| draft.rule(car, dial, 1).rule(car, dial, 2));
    refused(
        &draft,
        second(15),
        "rule for attribute `dial` of kind `car`",
    );
    let draft = with(|draft, _, car, _| draft.forward(car, this()).forward(car, this()));
    refused(&draft, second(10), "forward of kind `car`");
}

#[test]
fn an_expression_too_long_or_out_of_place_is_stop_6() {
    // 256 bytes, and 257.
    let nots = |base: Expression| (0..85).fold(base, |not, _| !not);
    for (base, length) in [(parameter(), 256), (true.into(), 257)] {
        let mut draft = Draft::new();
        let flag = draft.attribute_with("flag", Type::Bool, Type::Bool);
        let car = draft.kind("car");
        draft.node("house 5", car);
        let rule = nots(base);
        assert_eq!(rule.bytes().len(), length);
        draft.rule(car, flag, rule);
        match length {
            256 => assert!(draft.build().is_ok()),
            _ => refused(
                &draft,
                Stop::RuleForm.at(5),
                "rule for attribute `flag` of kind `car`",
            ),
        }
    }
    let draft = with(|draft, _, car, _| draft.forward(car, parameter()));
    refused(&draft, Stop::RuleForm.at(5), "forward of kind `car`");
}

#[test]
fn an_expression_of_the_wrong_type_is_stop_7() {
    let wrong: [fn(Attribute) -> Expression; 8] = [
        |_| true.into(),
        |_| this(),
        |_| parameter(),
        |_| Function::Add.apply(1),
        |_| if_(0, 1, 2),
        |_| if_(true, 1, this()),
        |dial| dial.of(0) + 1,
        |dial| dial.of_with(this(), 0),
    ];
    for expression in wrong {
        let draft = with(|draft, dial, car, _| draft.rule(car, dial, expression(dial)));
        let words = "rule for attribute `dial` of kind `car`";
        refused(&draft, Stop::RuleType.at(5), words);
    }
    let draft = with(|draft, _, car, _| draft.forward(car, 5));
    refused(&draft, Stop::RuleType.at(5), "forward of kind `car`");
}

#[test]
fn a_missing_pair_is_stop_8() {
    let (mut draft, dial, car, house) = house();
    let words = "attribute `dial` of node `house 5`, of kind `car`, has no definition";
    refused(&draft, Stop::NoDefinition.at(0), words);
    let volume = draft.attribute("volume", Type::Int);
    let shaft = draft.kind("shaft");
    draft.node("house 6", shaft);
    draft.figure(house, dial, 7).rule(shaft, dial, 8);
    let words = "attribute `volume` of node `house 5`, of kind `car`, has no definition";
    refused(&draft, Stop::NoDefinition.at(1), words);
    draft.rule(car, volume, 3);
    let words = "attribute `volume` of node `house 6`, of kind `shaft`, has no definition";
    refused(&draft, Stop::NoDefinition.at(33), words);
    draft.forward(shaft, house);
    assert!(draft.build().is_ok());
}

#[test]
fn a_handle_of_another_draft_is_refused_where_it_stands() {
    // Both drafts have the same numbers, so that only the handles tell them apart.
    let (_, their_dial, their_car, their_house) = house();
    let operand = Stop::Operand.at(5);
    let draft = with(|draft, dial, _, _| draft.figure(their_house, dial, 7));
    let words = "figure of attribute `dial` of another draft's node 0";
    refused(&draft, operand, words);
    let draft = with(|draft, _, _, house| draft.figure(house, their_dial, 7));
    let words = "figure of another draft's attribute 0 of node `house 5`";
    refused(&draft, operand, words);
    let draft = leading_to(|_, _| their_house);
    let words = "figure of attribute `up` of node `house 5`, with another draft's node 0";
    refused(&draft, operand, words);
    let draft = with(|draft, dial, _, _| draft.rule(their_car, dial, 7));
    let words = "rule for attribute `dial` of another draft's kind 0";
    refused(&draft, operand, words);
    let draft = with(|draft, _, car, _| draft.rule(car, their_dial, 7));
    let words = "rule for another draft's attribute 0 of kind `car`";
    refused(&draft, operand, words);
    let draft = with(|draft, _, _, _| draft.forward(their_car, this()));
    refused(&draft, operand, "forward of another draft's kind 0");
    let draft = with(|draft, _, _, _| {
        draft.node("house 6", their_car);
        draft
    });
    let words = "node `house 6` of another draft's kind 0";
    refused(&draft, operand, words);
}

#[test]
fn an_expression_with_a_handle_of_another_draft_is_refused() {
    let (_, their_dial, _, their_house) = house();
    type Mixed = fn(Attribute, Attribute, Node, Node) -> Expression;
    let expressions: [Mixed; 5] = [
        |_, theirs, _, _| theirs.of(this()),
        |dial, _, _, theirs| dial.of(theirs),
        |dial, theirs, house, _| dial.of(house) + theirs.of(house),
        |dial, _, _, theirs| if_(this().equal_node(theirs), 0, dial.of(this())),
        |dial, _, house, theirs| dial.of(if_(true, house, theirs)),
    ];
    for expression in expressions {
        let draft = with(|draft, dial, car, house| {
            draft.rule(car, dial, expression(dial, their_dial, house, their_house))
        });
        let words = "rule for attribute `dial` of kind `car`, with a handle of another draft";
        refused(&draft, Stop::RuleForm.at(5), words);
    }
    let draft = with(|draft, _, car, _| draft.forward(car, their_house));
    let words = "forward of kind `car`, with a handle of another draft";
    refused(&draft, Stop::RuleForm.at(5), words);
}

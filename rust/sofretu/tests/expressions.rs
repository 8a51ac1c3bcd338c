//! Expressions and questions have document 01's bytes.

use sofretu::build::{
    if_, parameter, this, Attribute, Draft, Expression, Function, Literal, Node, Question, NULL,
};
use sofretu::{Session, Stop, Store, Type, Value, MOST_STEPS};

#[test]
fn every_form_of_expression_has_its_bytes() {
    let (a, n) = (Attribute::numbered(7), Node::numbered(0x0102));
    let int = Expression::from;
    let forms: Vec<(Expression, Vec<u8>)> = vec![
        (().into(), vec![0x10]),
        (false.into(), vec![0x11, 0]),
        (true.into(), vec![0x11, 1]),
        (int(0x0403_0201), vec![0x12, 1, 2, 3, 4]),
        (int(-2), vec![0x12, 0xFE, 0xFF, 0xFF, 0xFF]),
        (int(i32::MIN), vec![0x12, 0, 0, 0, 0x80]),
        (n.into(), vec![0x13, 2, 1]),
        (Some(n).into(), vec![0x13, 2, 1]),
        (NULL.into(), vec![0x13, 0xFF, 0xFF]),
        (Literal::Node(None).into(), vec![0x13, 0xFF, 0xFF]),
        (Value::Unit.into(), vec![0x10]),
        (Value::Bool(true).into(), vec![0x11, 1]),
        (Value::Int(9).into(), vec![0x12, 9, 0, 0, 0]),
        (Value::Node(Some(258)).into(), vec![0x13, 2, 1]),
        (Value::Node(None).into(), vec![0x13, 0xFF, 0xFF]),
        (Function::Le.into(), vec![0x14, 0]),
        (Function::Equal.into(), vec![0x14, 1]),
        (Function::EqualNode.into(), vec![0x14, 2]),
        (Function::Not.into(), vec![0x14, 3]),
        (Function::Add.into(), vec![0x14, 4]),
        (Function::Subtract.into(), vec![0x14, 5]),
        (
            if_(true, (), NULL),
            vec![0x20, 0x11, 1, 0x10, 0x13, 255, 255],
        ),
        (this().apply(()), vec![0x21, 0x30, 0x10]),
        (Function::Not.apply(true), vec![0x21, 0x14, 3, 0x11, 1]),
        (a.of(n), vec![0x22, 7, 0x13, 2, 1, 0x10]),
        (a.of_with(this(), true), vec![0x22, 7, 0x30, 0x11, 1]),
        (this(), vec![0x30]),
        (parameter(), vec![0x31]),
        (
            parameter().le(this()),
            vec![0x21, 0x21, 0x14, 0, 0x31, 0x30],
        ),
        (
            parameter().equal(this()),
            vec![0x21, 0x21, 0x14, 1, 0x31, 0x30],
        ),
        (
            parameter().equal_node(this()),
            vec![0x21, 0x21, 0x14, 2, 0x31, 0x30],
        ),
        (!parameter(), vec![0x21, 0x14, 3, 0x31]),
        (parameter() + this(), vec![0x21, 0x21, 0x14, 4, 0x31, 0x30]),
        (parameter() - this(), vec![0x21, 0x21, 0x14, 5, 0x31, 0x30]),
        // Head first, left before right, all the way down.
        (
            if_(
                parameter().le(5),
                a.of_with(a.of(this()), parameter() - 1),
                int(3),
            ),
            [
                &[0x20, 0x21, 0x21, 0x14, 0, 0x31, 0x12, 5, 0, 0, 0][..],
                &[0x22, 7, 0x22, 7, 0x30, 0x10],
                &[0x21, 0x21, 0x14, 5, 0x31, 0x12, 1, 0, 0, 0],
                &[0x12, 3, 0, 0, 0],
            ]
            .concat(),
        ),
    ];
    for (expression, bytes) in forms {
        assert_eq!(expression.bytes(), bytes);
        let question = Question::from(expression);
        assert_eq!(*question, bytes);
        assert_eq!(
            question.framed(),
            [&[bytes.len() as u8, 0], &bytes[..]].concat()
        );
    }
}

#[test]
fn a_question_out_of_form_or_type_is_refused_when_it_is_asked() {
    let mut draft = Draft::new();
    let dial = draft.attribute("dial", Type::Int);
    let car = draft.kind("car");
    let house = draft.node("house 5", car);
    draft.rule(car, dial, 7);
    let sheet = draft.build().expect("an accepted sheet");
    let mut session = Session::open(&sheet, Store::default()).expect("an empty store");
    let mut ask = |question: Expression| {
        let answer = session.ask(&Question::from(question), MOST_STEPS);
        answer.value.map_err(|refusal| refusal.stop)
    };
    assert_eq!(ask(dial.of(house)), Ok(7.into()));
    for form in [
        dial.of(this()),
        parameter(),
        Attribute::numbered(1).of(house),
        Node::numbered(1).into(),
        (0..85).fold(true.into(), |not: Expression, _| !not),
    ] {
        assert_eq!(ask(form), Err(Stop::QuestionForm));
    }
    for typ in [dial.of(NULL).equal(true), Function::Le.apply(4), dial.of(0)] {
        assert_eq!(ask(typ), Err(Stop::QuestionType));
    }
}

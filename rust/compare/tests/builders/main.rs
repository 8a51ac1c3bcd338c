//! Made-up expressions and sheets, built by the library's builders, read back by the second evaluator's reader, and worked out by both.

mod random;

use std::collections::BTreeMap;

use compare::brought;
use oracle::expr::{self, Expr, Scope, Use};
use oracle::sheet::Sheet;
use oracle::values::{Base, Function as Code, Value};
use random::{Random, ATTRIBUTES, KINDS, NODES};
use sofretu::build::{if_, parameter, this, Attribute, Draft, Expression, Function, Kind, Node};
use sofretu::build::{Literal, Question};
use sofretu::{ask, Call, Type, MOST_STEPS};

/// A draft with its handles.
struct Drafted {
    draft: Draft,
    attributes: Vec<Attribute>,
    kinds: Vec<Kind>,
    nodes: Vec<Node>,
}

fn type_of(base: Base) -> Type {
    Type::from_code(base.code()).expect("a type")
}

impl Drafted {
    fn declared(random: &mut Random) -> Drafted {
        let mut draft = Draft::new();
        let kinds: Vec<Kind> = (0..KINDS).map(|_| draft.kind("kind")).collect();
        Drafted {
            attributes: ATTRIBUTES
                .map(|(result, parameter)| {
                    draft.attribute_with("attribute", type_of(result), type_of(parameter))
                })
                .to_vec(),
            nodes: (0..NODES)
                .map(|_| draft.node("node", random.pick(&kinds)))
                .collect(),
            kinds,
            draft,
        }
    }

    fn literal(&self, value: Value) -> Literal {
        match value {
            Value::Unit => ().into(),
            Value::Bool(truth) => truth.into(),
            Value::Int(number) => number.into(),
            Value::Node(node) => node.map(|node| self.nodes[usize::from(node)]).into(),
            Value::Function(_) | Value::Holding(_) => panic!("{value:?} is no base value"),
        }
    }

    /// The expression by the builders' words for it.
    fn built(&self, expr: &Expr) -> Expression {
        match expr {
            Expr::Literal(Value::Function(code)) => function(*code).into(),
            Expr::Literal(value) => self.literal(*value).into(),
            Expr::If(parts) => {
                let [condition, then, otherwise] = parts.each_ref().map(|part| self.built(part));
                if_(condition, then, otherwise)
            }
            Expr::Apply(parts) => {
                let argument = self.built(&parts[1]);
                match &parts[0] {
                    Expr::Literal(Value::Function(Code::Not)) => !argument,
                    Expr::Apply(inner) => {
                        let first = self.built(&inner[1]);
                        match &inner[0] {
                            Expr::Literal(Value::Function(code)) => match code {
                                Code::Le => first.le(argument),
                                Code::EqualInt => first.equal(argument),
                                Code::EqualNode => first.equal_node(argument),
                                Code::Add => first + argument,
                                Code::Subtract => first - argument,
                                Code::Not => function(Code::Not).apply(first).apply(argument),
                            },
                            other => self.built(other).apply(first).apply(argument),
                        }
                    }
                    other => self.built(other).apply(argument),
                }
            }
            Expr::Attribute(number, parts) => {
                let attribute = self.attributes[usize::from(*number)];
                let node = self.built(&parts[0]);
                match &parts[1] {
                    Expr::Literal(Value::Unit) => attribute.of(node),
                    other => attribute.of_with(node, self.built(other)),
                }
            }
            Expr::ThisNode => this(),
            Expr::Parameter => parameter(),
        }
    }

    /// A made-up expression built, which the second evaluator's reader reads as the same.
    fn expression(&self, random: &mut Random, base: Base, usage: Use, depth: usize) -> Expression {
        let made = random.expression(base, usage, depth);
        let built = self.built(&made);
        let attributes =
            ATTRIBUTES.map(|(result, parameter)| expr::Attribute { result, parameter });
        let scope = Scope {
            attributes: &attributes,
            nodes: NODES,
            usage,
        };
        assert_eq!(Expr::read(built.bytes(), scope), Some(made));
        built
    }
}

fn function(code: Code) -> Function {
    match code {
        Code::Le => Function::Le,
        Code::EqualInt => Function::Equal,
        Code::EqualNode => Function::EqualNode,
        Code::Not => Function::Not,
        Code::Add => Function::Add,
        Code::Subtract => Function::Subtract,
    }
}

/// A draft with figures, rules and forwards, some of them missing, doubled, too long or ill typed.
fn drafted(random: &mut Random) -> Drafted {
    let mut drafted = Drafted::declared(random);
    for (number, (result, parameter)) in ATTRIBUTES.into_iter().enumerate() {
        let attribute = drafted.attributes[number];
        for node in 0..NODES {
            if random.once_in(4) {
                let value = drafted.literal(random.value(result));
                drafted.draft.figure(drafted.nodes[node], attribute, value);
            }
        }
        for kind in 0..KINDS {
            let times = match random.below(150) {
                0 => 0,
                1 => 2,
                _ => 1,
            };
            for _ in 0..times {
                let usage = Use::Rule { parameter };
                let depth = if random.once_in(80) { 7 } else { 3 };
                let rule = drafted.expression(random, result, usage, depth);
                drafted.draft.rule(drafted.kinds[kind], attribute, rule);
            }
        }
    }
    for kind in 0..KINDS {
        if random.once_in(2) {
            let forward = drafted.expression(random, Base::Node, Use::Forward, 2);
            drafted.draft.forward(drafted.kinds[kind], forward);
        }
    }
    drafted
}

#[test]
fn what_is_built_reads_back_and_works_out_as_it_was_made() {
    let mut met: BTreeMap<i64, usize> = BTreeMap::new();
    for seed in 0..1_500 {
        let random = &mut Random(seed);
        let drafted = drafted(random);
        let bytes = drafted.draft.bytes();
        let built = drafted.draft.build();
        if let Err(stop) = Sheet::read(&bytes) {
            let refusal = built.expect_err("refused by the second evaluator").refusal;
            assert_eq!(
                (refusal.stop.number(), refusal.place),
                (stop.reason as u32, stop.place as u64)
            );
            *met.entry(stop.reason as i64).or_default() += 1;
            continue;
        }
        let sheet = built.expect("accepted by the second evaluator");
        assert_eq!(sheet.bytes(), bytes);
        let mut stores = [[0; 24 * 12]; 2];
        let mut kept = 0;
        for _ in 0..12 {
            let base = random.pick(&Base::ALL);
            let depth = if random.once_in(20) { 8 } else { 4 };
            let question = drafted.expression(random, base, Use::Question, depth);
            let question = Question::from(question);
            let [one, other] = &mut stores;
            let answer = brought(ask(Call {
                sheet: &bytes,
                question: &question,
                store: one,
                kept,
                budget: MOST_STEPS,
            }));
            assert_eq!(
                answer,
                oracle::ask(&bytes, other, kept, &question, MOST_STEPS)
            );
            assert_eq!(one, other);
            kept = answer.kept as u64;
            *met.entry(answer.number).or_default() += 1;
        }
    }
    // Values are met most often, and every stop that can come is met.
    assert!(met[&0] > 3_000, "{met:?}");
    for number in [5, 6, 7, 8, 12, 13, 14, 17, 20] {
        assert!(met.contains_key(&number), "{number}: {met:?}");
    }
}

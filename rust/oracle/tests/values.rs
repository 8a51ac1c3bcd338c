//! Document 01, "Values and functions"; document 02, F-4.

use oracle::values::{Base, Function, Overflow, Type, Value};

const MIN: i32 = i32::MIN;
const MAX: i32 = i32::MAX;

/// What a function of two arguments brings. The first application has always a value.
fn of_two(function: Function, first: Value, second: Value) -> Result<Value, Overflow> {
    let holding = Value::Function(function).apply(first);
    holding.expect("a function holding its first").apply(second)
}

fn of_ints(function: Function, first: i32, second: i32) -> Result<Value, Overflow> {
    of_two(function, Value::Int(first), Value::Int(second))
}

#[test]
fn sums_up_to_both_ends_fit() {
    let cases = [
        (MAX, 0, MAX),
        (0, MAX, MAX),
        (MAX - 1, 1, MAX),
        (1, MAX - 1, MAX),
        (1 << 30, (1 << 30) - 1, MAX),
        (MIN, 0, MIN),
        (MIN + 1, -1, MIN),
        (-1, MIN + 1, MIN),
        (-(1 << 30), -(1 << 30), MIN),
        (MIN, MAX, -1),
        (MAX, MIN, -1),
        (3, -5, -2),
    ];
    for (first, second, sum) in cases {
        let given = of_ints(Function::Add, first, second);
        assert_eq!(given, Ok(Value::Int(sum)), "{first} {second}");
    }
}

#[test]
fn differences_up_to_both_ends_fit() {
    let cases = [
        (MAX, 0, MAX),
        (MAX - 1, -1, MAX),
        (0, -MAX, MAX),
        (-1, MIN, MAX),
        (MIN, 0, MIN),
        (MIN + 1, 1, MIN),
        (-1, MAX, MIN),
        (0, MAX, MIN + 1),
        (MIN, MIN, 0),
        (MAX, MAX, 0),
        (3, 5, -2),
    ];
    for (first, second, difference) in cases {
        let given = of_ints(Function::Subtract, first, second);
        assert_eq!(given, Ok(Value::Int(difference)), "{first} {second}");
    }
}

#[test]
fn sums_and_differences_beyond_an_end_have_no_value() {
    let sums = [
        (MAX, 1),
        (1, MAX),
        (MAX, MAX),
        (1 << 30, 1 << 30),
        (MIN, -1),
        (-1, MIN),
        (MIN, MIN),
        (-(1 << 30) - 1, -(1 << 30)),
    ];
    for (first, second) in sums {
        let given = of_ints(Function::Add, first, second);
        assert_eq!(given, Err(Overflow), "{first} {second}");
    }
    let differences = [
        (MAX, -1),
        (MAX, MIN),
        (0, MIN),
        (1, -MAX),
        (MIN, 1),
        (-2, MAX),
        (MIN, MAX),
    ];
    for (first, second) in differences {
        let given = of_ints(Function::Subtract, first, second);
        assert_eq!(given, Err(Overflow), "{first} {second}");
    }
}

#[test]
fn le_and_equal_on_int() {
    for (first, second) in [(MIN, MAX), (MIN, MIN + 1), (-1, 0), (MAX - 1, MAX)] {
        let (yes, no) = (Ok(Value::Bool(true)), Ok(Value::Bool(false)));
        assert_eq!(of_ints(Function::Le, first, second), yes);
        assert_eq!(of_ints(Function::Le, second, first), no);
        assert_eq!(of_ints(Function::EqualInt, first, second), no);
        assert_eq!(of_ints(Function::EqualInt, second, first), no);
    }
    for same in [MIN, -1, 0, 1, MAX] {
        for function in [Function::Le, Function::EqualInt] {
            assert_eq!(of_ints(function, same, same), Ok(Value::Bool(true)));
        }
    }
}

#[test]
fn null_equals_only_null() {
    let cases = [
        (None, None, true),
        (Some(0), None, false),
        (None, Some(0), false),
        (Some(1_023), Some(1_023), true),
        (Some(1), Some(2), false),
    ];
    for (first, second, equal) in cases {
        let given = of_two(Function::EqualNode, Value::Node(first), Value::Node(second));
        assert_eq!(given, Ok(Value::Bool(equal)), "{first:?} {second:?}");
    }
}

#[test]
fn not_turns_a_bool() {
    let not = Value::Function(Function::Not);
    assert_eq!(not.apply(Value::Bool(true)), Ok(Value::Bool(false)));
    assert_eq!(not.apply(Value::Bool(false)), Ok(Value::Bool(true)));
}

#[test]
fn codes_name_types_and_functions() {
    let types: Vec<Option<Base>> = (0..=4).map(Base::from_code).collect();
    assert_eq!(
        types,
        [
            Some(Base::Unit),
            Some(Base::Bool),
            Some(Base::Int),
            Some(Base::Node),
            None
        ]
    );
    let functions: Vec<Option<Function>> = (0..=6).map(Function::from_code).collect();
    assert_eq!(
        functions,
        [
            Some(Function::Le),
            Some(Function::EqualInt),
            Some(Function::EqualNode),
            Some(Function::Not),
            Some(Function::Add),
            Some(Function::Subtract),
            None
        ]
    );
    const BOOL: Type = Type::Base(Base::Bool);
    const INT_TO_BOOL: Type = Type::Function(Base::Int, &BOOL);
    assert_eq!(
        Function::Le.type_of(),
        Type::Function(Base::Int, &INT_TO_BOOL)
    );
    assert_eq!(Function::Not.type_of(), Type::Function(Base::Bool, &BOOL));
}

#[test]
fn four_bytes_of_each_base_type() {
    let nodes = 3;
    let read = |base, bytes| Value::from_bytes(base, bytes, nodes);
    let good = [
        (Base::Unit, [0, 0, 0, 0], Value::Unit, 0),
        (Base::Bool, [0, 0, 0, 0], Value::Bool(false), 0),
        (Base::Bool, [1, 0, 0, 0], Value::Bool(true), 1),
        (Base::Int, [0, 0, 0, 0x80], Value::Int(MIN), -2_147_483_648),
        (
            Base::Int,
            [0xFF, 0xFF, 0xFF, 0x7F],
            Value::Int(MAX),
            2_147_483_647,
        ),
        (Base::Int, [0xFF; 4], Value::Int(-1), -1),
        (Base::Int, [0xBC, 2, 0, 0], Value::Int(700), 700),
        (Base::Node, [0, 0, 0, 0], Value::Node(Some(0)), 0),
        (Base::Node, [2, 0, 0, 0], Value::Node(Some(2)), 2),
        (Base::Node, [0xFF, 0xFF, 0, 0], Value::Node(None), 65_535),
    ];
    for (base, bytes, value, number) in good {
        assert_eq!(read(base, bytes), Some(value));
        assert_eq!(value.to_bytes(), bytes);
        assert_eq!(value.number(), number);
        assert_eq!(value.base(), Some(base));
    }
    let bad = [
        (Base::Unit, [1, 0, 0, 0]),
        (Base::Unit, [0, 0, 0, 1]),
        (Base::Bool, [2, 0, 0, 0]),
        (Base::Bool, [1, 1, 0, 0]),
        (Base::Bool, [0xFF; 4]),
        (Base::Node, [3, 0, 0, 0]),
        (Base::Node, [0, 0, 1, 0]),
        (Base::Node, [0xFF; 4]),
        (Base::Node, [0xFF, 0xFF, 1, 0]),
        (Base::Node, [0xFE, 0xFF, 0, 0]),
    ];
    for (base, bytes) in bad {
        assert_eq!(read(base, bytes), None, "{base:?} {bytes:?}");
    }
}

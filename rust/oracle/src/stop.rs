//! Document 01, "Stops by origin"; document 02, F-4 and F-9.

use crate::values::Overflow;

/// Why no value is given, by number.
#[derive(Clone, Copy, Debug, PartialEq, Eq)]
pub enum Reason {
    SheetLength = 1,
    Command = 2,
    TooMany = 3,
    Operand = 4,
    SecondDefinition = 5,
    RuleForm = 6,
    RuleType = 7,
    NoDefinition = 8,
    StoreShape = 9,
    StoreEntry = 10,
    Budget = 11,
    QuestionForm = 12,
    QuestionType = 13,
    Null = 14,
    Spent = 15,
    Depth = 16,
    Overflow = 17,
    Circle = 20,
}

impl From<Overflow> for Reason {
    fn from(Overflow: Overflow) -> Reason {
        Reason::Overflow
    }
}

/// A stop with its place, which is 0 where document 01 names no other.
#[derive(Clone, Copy, Debug, PartialEq, Eq)]
pub struct Stop {
    pub reason: Reason,
    pub place: usize,
}

impl Stop {
    /// A stop whose place is 0.
    pub fn of(reason: Reason) -> Stop {
        Stop { reason, place: 0 }
    }

    pub fn at(reason: Reason, place: usize) -> Stop {
        Stop { reason, place }
    }
}

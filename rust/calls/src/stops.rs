//! The stops of documents 01 and 02, with words for each.

use core::error::Error;
use core::fmt;

/// Why no value is given. The discriminants are the documents' numbers.
///
/// Numbers may be added, so a `match` over stops has an arm for the others.
#[derive(Clone, Copy, Debug, PartialEq, Eq, PartialOrd, Ord, Hash)]
#[non_exhaustive]
pub enum Stop {
    /// The sheet has over 65,536 bytes.
    SheetLength = 1,
    /// An unknown, misplaced or cut command, no end command, or bytes after it.
    Command = 2,
    /// A 33rd attribute or a 1,025th node.
    TooMany = 3,
    /// A command's operand is outside its values or undeclared.
    Operand = 4,
    /// A second figure for a pair, a second rule for a kind and attribute, or a second forward for a kind.
    SecondDefinition = 5,
    /// The length or expression of a rule or forward is not of the form, or a forward uses the parameter.
    RuleForm = 6,
    /// A rule is not of its attribute's type, or a forward is no Node.
    RuleType = 7,
    /// A declared pair of node and attribute has neither figure nor rule, and the node's kind no forward.
    NoDefinition = 8,
    /// The store's length is no capacity, or more is kept than it has room for.
    StoreShape = 9,
    /// A kept entry is none of this sheet's, its type not the attribute's, or repeats an occurrence.
    StoreEntry = 10,
    /// The budget is above 1,000,000.
    Budget = 11,
    /// The question is not of its form.
    QuestionForm = 12,
    /// The question is not of base type.
    QuestionType = 13,
    /// An attribute of null was due.
    Null = 14,
    /// A counted step was due with the whole budget used.
    Spent = 15,
    /// An attribute that is not kept was due inside 64 open ones.
    Depth = 16,
    /// A sum or difference was due that lies outside Int. The owner can mend it, whose rule adds or subtracts beyond one of Int's ends.
    Overflow = 17,
    /// An attribute that is not kept was due inside itself: the same one of the same node with the same parameter. The owner can mend it, whose
    /// equation needs its own value. A larger budget does not help.
    Circle = 20,
}

/// Who causes a stop.
#[derive(Clone, Copy, Debug, PartialEq, Eq, PartialOrd, Ord, Hash)]
#[non_exhaustive]
pub enum Origin {
    /// Who wrote the sheet: stops 1 to 8.
    Author,
    /// The program that lends the store: stops 9 and 10.
    Lender,
    /// Who puts the question: stops 11 to 13.
    Asker,
    /// The run itself: stops 14 to 17 and 20.
    Run,
}

impl Stop {
    /// The stops in the order of their numbers.
    pub const ALL: &'static [Stop] = &[
        Stop::SheetLength,
        Stop::Command,
        Stop::TooMany,
        Stop::Operand,
        Stop::SecondDefinition,
        Stop::RuleForm,
        Stop::RuleType,
        Stop::NoDefinition,
        Stop::StoreShape,
        Stop::StoreEntry,
        Stop::Budget,
        Stop::QuestionForm,
        Stop::QuestionType,
        Stop::Null,
        Stop::Spent,
        Stop::Depth,
        Stop::Overflow,
        Stop::Circle,
    ];

    /// The stop with a number: 1 to 17 and 20 have one.
    #[must_use]
    pub fn from_number(number: u32) -> Option<Stop> {
        let place = Stop::ALL.binary_search_by_key(&number, |stop| stop.number());
        place.ok().map(|place| Stop::ALL[place])
    }

    /// Its number, 1 to 17 or 20.
    #[must_use]
    pub fn number(self) -> u32 {
        self as u32
    }

    /// Who causes it.
    #[must_use]
    pub fn origin(self) -> Origin {
        match self.number() {
            1..=8 => Origin::Author,
            9 | 10 => Origin::Lender,
            11..=13 => Origin::Asker,
            _ => Origin::Run,
        }
    }

    /// The stop with a place.
    #[must_use]
    pub fn at(self, place: u64) -> Refusal {
        Refusal { stop: self, place }
    }
}

impl fmt::Display for Stop {
    fn fmt(&self, f: &mut fmt::Formatter) -> fmt::Result {
        f.write_str(match self {
            Stop::SheetLength => "the sheet is longer than 65,536 bytes",
            Stop::Command => {
                "the sheet has an unknown, misplaced or cut command, no end command, or bytes after it"
            }
            Stop::TooMany => "the sheet declares a 33rd attribute or a 1,025th node",
            Stop::Operand => "a command's operand is outside its values or undeclared",
            Stop::SecondDefinition => {
                "a second figure for one node and attribute, a second rule for one kind and attribute, or a second forward for one kind"
            }
            Stop::RuleForm => {
                "a rule or forward is not a well-formed expression of 1 to 256 bytes, or a forward uses the parameter"
            }
            Stop::RuleType => "a rule is not of its attribute's type, or a forward is no Node",
            Stop::NoDefinition => {
                "an attribute of a node has neither a figure nor a rule, and the node's kind no forward"
            }
            Stop::StoreShape => {
                "the store's length is not that of 0 to 1,024 entries, or more is kept than it has room for"
            }
            Stop::StoreEntry => "a kept entry is none of this sheet's, or repeats an earlier one",
            Stop::Budget => "the budget is above 1,000,000 steps",
            Stop::QuestionForm => "the question is not a well-formed expression of 1 to 256 bytes",
            Stop::QuestionType => "the question is not of a base type",
            Stop::Null => "an attribute of null was due",
            Stop::Spent => "the budget is spent",
            Stop::Depth => "an attribute that is not kept was due inside 64 open ones",
            Stop::Overflow => "a sum or difference was due that lies outside Int",
            Stop::Circle => "an attribute was due inside itself, and so needs its own value",
        })
    }
}

impl fmt::Display for Origin {
    fn fmt(&self, f: &mut fmt::Formatter) -> fmt::Result {
        f.write_str(match self {
            Origin::Author => "the sheet's author",
            Origin::Lender => "the program that lends the store",
            Origin::Asker => "the person who puts the question",
            Origin::Run => "the run",
        })
    }
}

/// A stop with its place. [`Stop::at`] makes one.
#[derive(Clone, Copy, Debug, PartialEq, Eq, Hash)]
#[non_exhaustive]
pub struct Refusal {
    /// The stop.
    pub stop: Stop,
    /// For stops 2 to 7 the offset of the faulty command; for 8 node × 32 + attribute, of several pairs the one with the lowest attribute, and among
    /// those the lowest node; for 10 the entry's number; else 0.
    pub place: u64,
}

impl fmt::Display for Refusal {
    fn fmt(&self, f: &mut fmt::Formatter) -> fmt::Result {
        let Refusal { stop, place } = self;
        write!(f, "stop {}", stop.number())?;
        match stop.number() {
            2..=7 => write!(f, " at byte {place}")?,
            8 => write!(f, " at node {}, attribute {}", place / 32, place % 32)?,
            10 => write!(f, " at entry {place}")?,
            _ => {}
        }
        write!(f, ": {stop}")
    }
}

impl Error for Refusal {}

impl From<Stop> for Refusal {
    /// A stop whose place is 0.
    fn from(stop: Stop) -> Refusal {
        stop.at(0)
    }
}

#[cfg(test)]
mod tests {
    use super::*;

    #[test]
    fn stops_are_in_the_order_of_their_numbers() {
        let numbers = Stop::ALL.iter().map(|stop| stop.number());
        assert!(numbers.eq((1..=17).chain([20])));
        for &stop in Stop::ALL {
            assert_eq!(Stop::from_number(stop.number()), Some(stop));
        }
        for number in [0, 18, 19, 21, u32::MAX] {
            assert_eq!(Stop::from_number(number), None);
        }
    }

    #[test]
    fn every_stop_has_words_of_its_own() {
        let mut words: Vec<String> = Stop::ALL.iter().map(Stop::to_string).collect();
        words.sort();
        words.dedup();
        assert_eq!(words.len(), Stop::ALL.len());
    }

    #[test]
    fn every_stop_has_its_origin() {
        let with = |origin| {
            let numbers = Stop::ALL.iter().filter(move |stop| stop.origin() == origin);
            numbers.map(|stop| stop.number())
        };
        assert!(with(Origin::Author).eq(1..=8));
        assert!(with(Origin::Lender).eq(9..=10));
        assert!(with(Origin::Asker).eq(11..=13));
        assert!(with(Origin::Run).eq((14..=17).chain([20])));
    }

    #[test]
    fn a_refusal_says_where() {
        let of = |stop: Stop, place| stop.at(place).to_string();
        assert!(of(Stop::Command, 7).starts_with("stop 2 at byte 7: "));
        assert!(of(Stop::NoDefinition, 65).starts_with("stop 8 at node 2, attribute 1: "));
        assert!(of(Stop::StoreEntry, 3).starts_with("stop 10 at entry 3: "));
        assert_eq!(of(Stop::Spent, 0), "stop 15: the budget is spent");
    }
}

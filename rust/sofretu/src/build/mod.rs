//! Sheets and questions made by calls, in the owner's own names.
//!
//! A [`Draft`] hands out handles for its attributes, kinds and nodes, and takes figures, rules and forwards in any order. It writes document
//! 01's bytes, each command in its order and each number in its width, and has them checked by the library. So a sheet that is built is one
//! that the library accepts, and a draft that is refused is refused by the library's own stops, with the draft's name for the place.
//!
//! ```
//! use sofretu::build::{if_, this, Draft, Question, NULL};
//! use sofretu::{Session, Store, Type, Value, MOST_STEPS};
//!
//! # fn main() -> Result<(), Box<dyn std::error::Error>> {
//! // Sheet L of document 01.
//! let mut draft = Draft::new();
//! let up = draft.attribute("up", Type::Node);
//! let own = draft.attribute("own", Type::Int);
//! let dial = draft.attribute("dial", Type::Int);
//!
//! let building = draft.kind("building");
//! let car = draft.kind("car");
//! let house = draft.node("house 5", building);
//! let left = draft.node("house 5, left car", car);
//! let right = draft.node("house 5, right car", car);
//!
//! draft.figure(house, up, NULL).figure(house, own, 700);
//! draft.figure(left, up, house).figure(left, own, 0);
//! draft.figure(right, up, house).figure(right, own, 811);
//!
//! draft.rule(building, dial, own.of(this()));
//! // A car with no number of its own takes its building's.
//! draft.rule(car, dial, if_(own.of(this()).equal(0), dial.of(up.of(this())), own.of(this())));
//!
//! let sheet = draft.build()?;
//! assert_eq!(sheet.bytes().len(), 103);
//!
//! // D: the dial of the left car.
//! let mut session = Session::open(&sheet, Store::default())?;
//! let answer = session.ask(&Question::from(dial.of(left)), MOST_STEPS);
//! assert_eq!((answer.value, answer.steps), (Ok(Value::Int(700)), 8));
//! # Ok(())
//! # }
//! ```
//!
//! The report program and others read a sheet's bytes from a file: [`Draft::bytes`] gives them, and so does the built sheet.

mod draft;
mod error;
mod expression;
mod handles;
mod question;
mod words;
mod write;

pub use draft::Draft;
pub use error::BuildError;
pub use expression::{if_, parameter, this, Expression, Function};
pub use handles::{Attribute, Kind, Literal, Node, NULL};
pub use question::Question;

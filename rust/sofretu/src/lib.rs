//! The proved settings engine for Rust.
//!
//! A compiled rule sheet is a string of bytes; a question is a small expression; worked-out figures are kept between questions in
//! a store that the caller lends. Whatever bytes come in, every call ends with a value or a numbered refusal. The engine is the
//! static library that `scripts/build.sh` writes from proved code; this crate is a thin, safe cover over its C calls.
//!
//! Load a [`Sheet`], open a [`Session`] on it with a [`Store`], and [`ask`](Session::ask):
//!
//! ```
//! use sofretu::{Refusal, Session, Sheet, Stop, Store, Value, MOST_STEPS};
//!
//! // Sheet L of document 01: attributes up, own and dial, and nodes 0 (a building), 1 and 2 (its cars). A car with no number
//! // of its own takes its building's.
//! const SHEET_L: [u8; 103] = [
//!     0x41, 3, 0, 0x41, 2, 0, 0x41, 2, 0, // up: a Node; own and dial: Ints; each without parameter
//!     0x4E, 0, 0x4E, 1, 0x4E, 1, // node 0 of kind 0, nodes 1 and 2 of kind 1
//!     0x56, 0, 0, 0, 0xFF, 0xFF, 0, 0, // node 0: up is null,
//!     0x56, 0, 0, 1, 0xBC, 0x02, 0, 0, // own is 700
//!     0x56, 1, 0, 0, 0, 0, 0, 0, // node 1: up is node 0,
//!     0x56, 1, 0, 1, 0, 0, 0, 0, // own is 0
//!     0x56, 2, 0, 0, 0, 0, 0, 0, // node 2: up is node 0,
//!     0x56, 2, 0, 1, 0x2B, 0x03, 0, 0, // own is 811
//!     0x52, 0, 2, 4, 0, // kind 0's dial:
//!     0x22, 1, 0x30, 0x10, // own of this node
//!     0x52, 1, 2, 25, 0, // kind 1's dial: IF equal(own)(0) THEN up.dial ELSE own
//!     0x20, 0x21, 0x21, 0x14, 1, 0x22, 1, 0x30, 0x10, 0x12, 0, 0, 0, 0, //
//!     0x22, 2, 0x22, 0, 0x30, 0x10, 0x10, //
//!     0x22, 1, 0x30, 0x10, //
//!     0x5A,
//! ];
//! const DIAL_1: [u8; 6] = [0x22, 2, 0x13, 1, 0, 0x10]; // node 1's dial
//! const DIAL_2: [u8; 6] = [0x22, 2, 0x13, 2, 0, 0x10]; // node 2's dial
//! const OWN_OF_NULL: [u8; 9] = [0x22, 1, 0x22, 0, 0x13, 0, 0, 0x10, 0x10]; // own of node 0's up
//!
//! # fn main() -> Result<(), Refusal> {
//! let sheet = Sheet::load(SHEET_L)?; // owns its bytes; `Sheet::check` borrows them
//! let mut session = Session::open(&sheet, Store::default())?;
//!
//! let first = session.ask(&DIAL_1, MOST_STEPS);
//! assert_eq!((first.value, first.steps, first.kept), (Ok(Value::Int(700)), 8, 5));
//!
//! // The tally tells where the steps went: up of node 1, own and dial of nodes 0 and 1, equal of two arguments, and the IF.
//! assert_eq!(
//!     first.tally.to_string(),
//!     "8 steps: 1 of attribute 0, 2 of attribute 1, 2 of attribute 2, 2 applications, 1 condition"
//! );
//!
//! // It is kept, and takes one step when it is asked again.
//! let again = session.ask(&DIAL_1, MOST_STEPS);
//! assert_eq!((again.steps, again.tally.attribute(2)), (1, 1));
//! assert_eq!(session.ask(&DIAL_2, MOST_STEPS).value?, Value::Int(811));
//!
//! let refused = session.ask(&OWN_OF_NULL, MOST_STEPS);
//! assert_eq!(refused.value, Err(Stop::Null.at(0)));
//! assert_eq!(refused.value.unwrap_err().to_string(), "stop 14: an attribute of null was due");
//! assert_eq!(refused.tally.to_string(), "1 step: 1 of attribute 0");
//!
//! // The session gives its store back, which tells what it keeps, in the order in which it was kept.
//! let store = session.into_store();
//! let last = store.entries().last().expect("eight are kept")?;
//! assert_eq!((last.node, last.attribute, last.value), (0, 0, Value::Node(None)));
//!
//! // The store can be put away, with its number kept, and lent again.
//! let (bytes, kept) = store.into_parts();
//! assert_eq!((bytes.len(), kept), (12_288, 8));
//! # Ok(())
//! # }
//! ```
//!
//! A sheet is shared by its clones, on any thread; a session belongs to one thread at a time, and can be kept in a struct beside its sheet. The
//! example `server` (`examples/server.rs`) answers a stream of questions from several threads and takes over a new sheet; `fleet` holds a
//! million handsets.
//!
//! Sheets and questions need not be written as bytes: [`build`] makes them by calls, in the owner's own names.
//!
//! [`ask`] puts one question with all its checks, of any bytes, and [`Scratch::ask`] does so in memory that is made once.
//!
//! # Linking
//!
//! The build looks for `libsofretu.a` in the directory that the variable `SOFRETU_LIB_DIR` names, and else where `scripts/build.sh` puts it in
//! Sofretu's own repository. With `SOFRETU_NO_LINK=1` it looks for none: enough to check and to document a program, not to run it.
//!
//! "Document 01" is the paper *Settings sheets evaluated by Saiga*.
#![deny(unsafe_code)]
#![warn(missing_docs)]

mod answer;
pub mod build;
mod session;
mod sheet;
mod store;
mod value;
mod whole;

pub use answer::Answer;
#[doc(inline)]
pub use calls::{Call, Origin, Refusal, Stop, Tally};
pub use session::{Holds, Session, Unopened};
pub use sheet::Sheet;
pub use store::{Entry, Store, ENTRY, MOST_ENTRIES};
pub use value::{Type, Value, WrongType};
pub use whole::{ask, ask_cleared, check, Scratch};

/// The greatest budget permitted.
pub const MOST_STEPS: u64 = 1_000_000;

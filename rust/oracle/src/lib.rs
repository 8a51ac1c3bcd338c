//! A second evaluator of settings sheets, written from documents 01 and 02 alone. It shares nothing with the engines that are
//! compared with it, not even their table of stops.
//!
//! "Document 01" is the paper "Settings sheets evaluated by Saiga", "document 02" its change requests, "document 001" the paper
//! on Saiga that it follows. Comments name the section of document 01 or the request of document 02 that the code says again,
//! and put its words between quotation marks.
#![forbid(unsafe_code)]

pub mod ask;
pub mod caching;
pub mod expr;
pub mod plain;
pub mod sheet;
pub mod stop;
pub mod store;
pub mod tally;
pub mod values;

pub use ask::{ask, Answer};

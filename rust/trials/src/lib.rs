//! What tries an engine: lists of questions, made up or read from files, put to it and to the second evaluator; demand 3's parts tried on
//! its answers; and a failing list made smaller.
//!
//! "Document 01" is the paper "Settings sheets evaluated by Saiga".
#![forbid(unsafe_code)]

pub mod case;
pub mod collide;
pub mod commands;
pub mod compare;
pub mod demand3;
pub mod engine;
pub mod examples;
pub mod generate;
mod pieces;
pub mod shrink;
pub mod soak;
pub mod write;
pub mod written_out;

pub use calls::Call;
pub use case::{Ask, Case};
pub use compare::compare;
pub use demand3::demand3;
pub use engine::{Engine, Oracle};
pub use oracle::Answer;
pub use written_out::as_rules;

//! What documents 01 and 02 say, case by case, put to the second evaluator. The cases of `circles`, `depth`, `forwards`, `ints`, `overflow`, `sheet_l`,
//! `stops`, `tally` and `types` are put to `crate::ask`, so that another test can put them to another engine.

mod circles;
mod common;
mod comparing;
mod depth;
mod forwards;
mod ints;
mod overflow;
mod page;
mod sheet_l;
mod stops;
mod tally;
mod types;
mod vectors;

use oracle::ask::ask;

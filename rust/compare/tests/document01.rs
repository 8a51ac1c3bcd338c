//! The cases of documents 01 and 02, which `rust/trials` puts to the second evaluator, put to the library.

#[path = "../../trials/tests/document01/circles.rs"]
mod circles;
#[path = "../../trials/tests/document01/common.rs"]
mod common;
#[path = "../../trials/tests/document01/depth.rs"]
mod depth;
#[path = "../../trials/tests/document01/forwards.rs"]
mod forwards;
#[path = "../../trials/tests/document01/ints.rs"]
mod ints;
#[path = "../../trials/tests/document01/overflow.rs"]
mod overflow;
#[path = "../../trials/tests/document01/sheet_l.rs"]
mod sheet_l;
#[path = "../../trials/tests/document01/stops.rs"]
mod stops;
#[path = "../../trials/tests/document01/tally.rs"]
mod tally;
#[path = "../../trials/tests/document01/types.rs"]
mod types;

use trials::{Answer, Call};

fn ask(sheet: &[u8], store: &mut [u8], kept: u64, question: &[u8], budget: u64) -> Answer {
    let call = Call {
        sheet,
        question,
        store,
        kept,
        budget,
    };
    compare::brought(sofretu::ask(call))
}

//! The answer of a call.

use calls::Refusal;

use crate::values::Value;

/// A value or a stop, the steps counted, and the number kept.
#[derive(Clone, Copy, Debug, PartialEq, Eq)]
pub struct Answer {
    pub ending: Result<Value, Refusal>,
    pub steps: u64,
    pub kept: u64,
}

impl Answer {
    /// The answer of a call that is refused before its run.
    pub(crate) fn refusal(refusal: Refusal, kept: u64) -> Answer {
        Answer {
            ending: Err(refusal),
            steps: 0,
            kept,
        }
    }

    /// Number, place, type, value, steps, kept.
    pub fn fields(&self) -> [i64; 6] {
        let [number, place, typ, value] = match self.ending {
            Ok(value) => [0, 0, value.type_code().into(), value.number()],
            Err(Refusal { stop, place, .. }) => [stop.number().into(), place as i64, 0, 0],
        };
        [
            number,
            place,
            typ,
            value,
            self.steps as i64,
            self.kept as i64,
        ]
    }
}

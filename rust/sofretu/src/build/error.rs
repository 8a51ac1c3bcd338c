//! Why a draft is no sheet.

use std::error::Error;
use std::fmt;

use calls::Refusal;

/// A draft that the library refuses, with the draft's own name for the place.
#[derive(Clone, Debug, PartialEq, Eq, Hash)]
#[non_exhaustive]
pub struct BuildError {
    /// The library's refusal of the bytes that the draft writes.
    pub refusal: Refusal,
    /// The place by the names of the draft, such as "rule for attribute `dial` of kind `car`".
    pub place: String,
}

/// The place, and what the refusal says.
impl fmt::Display for BuildError {
    fn fmt(&self, f: &mut fmt::Formatter<'_>) -> fmt::Result {
        write!(f, "{}: {}", self.place, self.refusal)
    }
}

impl Error for BuildError {}

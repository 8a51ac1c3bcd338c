//! Document 02, F-2: where the counted steps went.

/// "It has 34 rows".
pub const ROWS: usize = 34;

/// "The AttrApp steps for each of the 32 attribute numbers, the AppApp steps, and CondTrue with CondFalse together", in this order.
pub type Tally = [u64; ROWS];

/// "1 to 13 bring zeros."
pub const ZEROS: Tally = [0; ROWS];

/// The rules whose steps count.
#[derive(Clone, Copy, Debug, PartialEq, Eq)]
pub enum Rule {
    /// AttrApp on the attribute with a number.
    AttrApp(u8),
    AppApp,
    CondTrue,
    CondFalse,
}

impl Rule {
    /// The row that counts its steps.
    pub fn row(self) -> usize {
        match self {
            Rule::AttrApp(attribute) => attribute.into(),
            Rule::AppApp => 32,
            Rule::CondTrue | Rule::CondFalse => 33,
        }
    }
}

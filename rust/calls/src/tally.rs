//! The tally of an answer, with words for it.

use core::fmt;

/// How many rows a tally has.
pub const TALLY_ROWS: usize = 34;
/// How many attribute numbers there are. The attribute with a number has the row of that number.
pub const ATTRIBUTES: usize = 32;
/// The row of the applications.
pub const APPLICATIONS: usize = 32;
/// The row of the conditions.
pub const CONDITIONS: usize = 33;

/// The rows of a tally as numbers.
pub type Rows = [u64; TALLY_ROWS];

/// Where the counted steps of an answer went.
///
/// Each counted step is in one row: that of its attribute, that of the applications or that of the conditions. So the rows of an answer add up to
/// its steps. Stops 14 to 17 and 20 bring the steps before the stop, stops 1 to 13 none.
///
/// ```
/// # use calls::Tally;
/// // Node 1's dial on sheet L of document 01: 8 steps.
/// let mut rows = [0; 34];
/// rows[..3].copy_from_slice(&[1, 2, 2]);
/// rows[32..].copy_from_slice(&[2, 1]);
/// let tally = Tally::from(rows);
///
/// assert_eq!(tally.attribute(1), 2);
/// assert!(tally.attributes().eq([(0, 1), (1, 2), (2, 2)]));
/// assert_eq!((tally.applications(), tally.conditions()), (2, 1));
/// assert_eq!(tally.total(), 8);
/// assert_eq!(
///     tally.to_string(),
///     "8 steps: 1 of attribute 0, 2 of attribute 1, 2 of attribute 2, 2 applications, 1 condition"
/// );
/// ```
#[derive(Clone, Copy, Debug, PartialEq, Eq, Hash)]
pub struct Tally {
    rows: Rows,
}

impl Tally {
    /// The steps that took an attribute with this number, of any node: by its definition or kept. A number from 32 on, which no sheet
    /// declares, has none.
    #[must_use]
    pub fn attribute(&self, number: u8) -> u64 {
        let attributes = &self.rows[..ATTRIBUTES];
        attributes.get(usize::from(number)).copied().unwrap_or(0)
    }

    /// The attributes that have steps, each with its number and its steps, the lowest number first.
    pub fn attributes(&self) -> impl Iterator<Item = (u8, u64)> + '_ {
        let attributes = self.rows[..ATTRIBUTES].iter().copied();
        (0..).zip(attributes).filter(|(_, steps)| *steps > 0)
    }

    /// The steps that gave an argument to a function. One that takes two arguments makes two.
    #[must_use]
    pub fn applications(&self) -> u64 {
        self.rows[APPLICATIONS]
    }

    /// The steps that chose a branch of an IF, the first or the second.
    #[must_use]
    pub fn conditions(&self) -> u64 {
        self.rows[CONDITIONS]
    }

    /// What the rows add up to: the steps of the answer. The greatest `u64` stands for any greater sum, which no answer has.
    #[inline]
    #[must_use]
    pub fn total(&self) -> u64 {
        let mut rows = self.rows.iter();
        let sum = rows.try_fold(0, |sum: u64, row| sum.checked_add(*row));
        sum.unwrap_or(u64::MAX)
    }

    /// The rows as numbers: attributes 0 to 31, the applications, the conditions.
    #[must_use]
    pub fn rows(&self) -> &[u64] {
        &self.rows
    }
}

impl From<[u64; TALLY_ROWS]> for Tally {
    fn from(rows: [u64; TALLY_ROWS]) -> Tally {
        Tally { rows }
    }
}

impl Default for Tally {
    /// The tally without steps.
    fn default() -> Tally {
        Tally::from([0; TALLY_ROWS])
    }
}

/// The total and the rows that have steps, on one line.
impl fmt::Display for Tally {
    fn fmt(&self, f: &mut fmt::Formatter) -> fmt::Result {
        let plural = |number| if number == 1 { "" } else { "s" };
        let total = self.total();
        if total == 0 {
            return f.write_str("no steps");
        }
        write!(f, "{total} step{}", plural(total))?;
        let mut mark = ": ";
        for (number, steps) in self.attributes() {
            write!(f, "{mark}{steps} of attribute {number}")?;
            mark = ", ";
        }
        for (steps, what) in [
            (self.applications(), "application"),
            (self.conditions(), "condition"),
        ] {
            if steps > 0 {
                write!(f, "{mark}{steps} {what}{}", plural(steps))?;
                mark = ", ";
            }
        }
        Ok(())
    }
}

#[cfg(test)]
mod tests {
    use super::*;

    /// A tally with these rows and no others.
    fn tally(rows: &[(usize, u64)]) -> Tally {
        let mut all = [0; TALLY_ROWS];
        for (row, steps) in rows {
            all[*row] = *steps;
        }
        Tally::from(all)
    }

    #[test]
    fn each_row_has_its_name() {
        let tally = Tally::from(core::array::from_fn(|row| 100 + row as u64));
        for number in 0..32 {
            assert_eq!(tally.attribute(number), 100 + u64::from(number));
        }
        for number in 32..=255 {
            assert_eq!(tally.attribute(number), 0);
        }
        assert_eq!((tally.applications(), tally.conditions()), (132, 133));
        assert_eq!(tally.total(), (100..134).sum());
    }

    #[test]
    fn only_attributes_with_steps_are_gone_through() {
        let tally = tally(&[(31, 4), (3, 9), (32, 5), (33, 6)]);
        assert!(tally.attributes().eq([(3, 9), (31, 4)]));
        assert_eq!(Tally::default().attributes().count(), 0);
    }

    #[test]
    fn a_sum_that_does_not_fit_is_the_greatest() {
        assert_eq!(tally(&[(0, u64::MAX)]).total(), u64::MAX);
        assert_eq!(tally(&[(0, u64::MAX), (33, 2)]).total(), u64::MAX);
        assert_eq!(Tally::from([u64::MAX; TALLY_ROWS]).total(), u64::MAX);
    }

    #[test]
    fn a_person_can_read_it() {
        let said = |rows: &[(usize, u64)]| tally(rows).to_string();
        assert_eq!(said(&[]), "no steps");
        assert_eq!(said(&[(2, 1)]), "1 step: 1 of attribute 2");
        assert_eq!(said(&[(33, 1)]), "1 step: 1 condition");
        assert_eq!(
            said(&[(31, 1), (32, 1), (33, 2)]),
            "4 steps: 1 of attribute 31, 1 application, 2 conditions"
        );
    }
}

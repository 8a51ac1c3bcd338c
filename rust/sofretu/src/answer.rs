//! Answers.

use std::fmt;

use calls::{Refusal, Rows, Stop, Tally};

use crate::value::Value;

/// What a question brings.
///
/// ```
/// use sofretu::{Sheet, Session, Store, Stop, Value, MOST_STEPS};
///
/// let sheet = Sheet::check(&[0x5A])?;
/// let mut session = Session::open(&sheet, Store::default())?;
/// match session.ask(&[0x12, 5, 0, 0, 0], MOST_STEPS).value {
///     Ok(Value::Int(number)) => assert_eq!(number, 5),
///     Ok(value) => println!("{value} is no Int"),
///     Err(refusal) if refusal.stop == Stop::Spent => println!("a larger budget may help"),
///     Err(refusal) => println!("{refusal}, caused by {}", refusal.stop.origin()),
/// }
/// # Ok::<(), sofretu::Refusal>(())
/// ```
#[derive(Clone, Copy, Debug, PartialEq, Eq, Hash)]
#[must_use = "an answer tells whether there is a value"]
#[non_exhaustive]
pub struct Answer {
    /// The value of the question, or why it has none.
    pub value: Result<Value, Refusal>,
    /// The counted steps that it took; of a refusal those before the stop, and none under stops 1 to 13.
    pub steps: u64,
    /// How many entries the store holds afterwards; under stops 1 to 13 the number that was lent.
    pub kept: u64,
    /// Where the counted steps went: as many as `steps`.
    ///
    /// ```
    /// use sofretu::{ask, Call};
    ///
    /// // One node with an Int attribute, whose figure is 7; and the sum of the attribute with itself, in a store that keeps it.
    /// let sheet = [0x41, 2, 0, 0x4E, 0, 0x56, 0, 0, 0, 7, 0, 0, 0, 0x5A];
    /// let question = [0x21, 0x21, 0x14, 4, 0x22, 0, 0x13, 0, 0, 0x10, 0x22, 0, 0x13, 0, 0, 0x10];
    /// let answer = ask(Call { sheet: &sheet, question: &question, store: &mut [0; 12], kept: 0, budget: 100 });
    ///
    /// let tally = answer.tally;
    /// assert_eq!((tally.attribute(0), tally.applications(), tally.conditions()), (2, 2, 0));
    /// assert_eq!(tally.total(), answer.steps);
    /// assert_eq!(tally.to_string(), "4 steps: 2 of attribute 0, 2 applications");
    /// ```
    pub tally: Tally,
}

impl Answer {
    /// The answer that six fields and the rows of a tally stand for, if they are those of an answer: the rows add up to the steps.
    ///
    /// It is put into its caller, so that the rows are copied once.
    #[inline(always)]
    pub(crate) fn from_fields(fields: [i64; 6], rows: &Rows) -> Option<Answer> {
        let [number, place, typ, value, steps, kept] = fields;
        let place = u64::try_from(place).ok()?;
        let value = if number == 0 && place == 0 {
            Ok(Value::from_fields(typ, value)?)
        } else {
            let stop = Stop::from_number(u32::try_from(number).ok()?)?;
            Err(((typ, value) == (0, 0)).then_some(stop.at(place))?)
        };
        let steps = u64::try_from(steps).ok()?;
        let tally = Tally::from(*rows);
        (tally.total() == steps).then_some(Answer {
            value,
            steps,
            kept: kept.cast_unsigned(),
            tally,
        })
    }

    /// Document 01's six fields: number, place, type, value, steps, kept.
    ///
    /// A number kept above the greatest `i64`, which only a refused call can be lent, is in two's complement.
    #[must_use]
    pub fn fields(&self) -> [i64; 6] {
        let [number, place, typ, value] = match self.value {
            Ok(value) => [0, 0, value.value_type().code().into(), value.number()],
            Err(refusal) => {
                let number = refusal.stop.number().into();
                [number, refusal.place.cast_signed(), 0, 0]
            }
        };
        let (steps, kept) = (self.steps.cast_signed(), self.kept.cast_signed());
        [number, place, typ, value, steps, kept]
    }
}

/// The six fields, as the report program prints them.
impl fmt::Display for Answer {
    fn fmt(&self, f: &mut fmt::Formatter<'_>) -> fmt::Result {
        let [number, place, typ, value, steps, kept] = self.fields();
        write!(f, "{number} {place} {typ} {value} {steps} {kept}")
    }
}

#[cfg(test)]
mod tests {
    use super::*;

    /// A tally of so many steps, in several rows.
    fn rows(steps: i64) -> Rows {
        let mut rows = [0; 34];
        for step in 0..steps {
            rows[[0, 31, 32, 33][step as usize % 4]] += 1;
        }
        rows
    }

    #[test]
    fn an_answers_fields_are_those_it_was_read_from() {
        let mut values = vec![(0, 0), (1, 0), (1, 1), (3, 0), (3, 1_023), (3, 65_535)];
        values.extend([i32::MIN, -1, 0, 700, i32::MAX].map(|int| (2, int.into())));
        let answers = values
            .into_iter()
            .map(|(typ, value)| [0, 0, typ, value, 8, 5])
            .chain((1..=17).chain([20]).map(|number| [number, 3, 0, 0, 2, -1]));
        for fields in answers {
            let rows = rows(fields[4]);
            let answer = Answer::from_fields(fields, &rows).expect("an answer");
            assert_eq!(answer.fields(), fields);
            assert_eq!(answer.tally.rows(), rows);
        }
    }

    #[test]
    fn nothing_else_is_an_answer() {
        let others = [
            [18, 0, 0, 0, 0, 0],
            [19, 0, 0, 0, 0, 0],
            [21, 0, 0, 0, 0, 0],
            [-1, 0, 0, 0, 0, 0],
            [0, 1, 0, 0, 0, 0],
            [0, 0, 4, 0, 0, 0],
            [0, 0, 256, 0, 0, 0],
            [0, 0, 0, 1, 0, 0],
            [0, 0, 1, 2, 0, 0],
            [0, 0, 2, 1 << 31, 0, 0],
            [0, 0, 3, -1, 0, 0],
            [0, 0, 3, 1_024, 0, 0],
            [0, 0, 3, 65_536, 0, 0],
            [0, 0, 2, 700, -1, 0],
            [14, 0, 2, 0, 1, 0],
            [14, 0, 0, 1, 1, 0],
            [14, -1, 0, 0, 1, 0],
            [20, 0, 2, 700, 1, 0],
        ];
        for fields in others {
            let read = Answer::from_fields(fields, &rows(fields[4]));
            assert_eq!(read, None, "{fields:?}");
        }
    }

    #[test]
    fn rows_that_do_not_add_up_to_the_steps_are_no_answers() {
        for fields in [[0, 0, 2, 700, 8, 5], [14, 0, 0, 0, 8, 5]] {
            let mut wrapped = rows(8);
            wrapped[5] = 1 << 63;
            wrapped[6] = 1 << 63;
            for rows in [rows(7), rows(9), wrapped, [u64::MAX; 34]] {
                assert_eq!(Answer::from_fields(fields, &rows), None, "{rows:?}");
            }
            assert!(Answer::from_fields(fields, &rows(8)).is_some());
        }
    }
}

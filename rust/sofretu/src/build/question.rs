//! Questions.

use std::ops::Deref;

use super::expression::Expression;

/// A question: the bytes of an expression, as [`Session::ask`](crate::Session::ask) takes them.
///
/// ```
/// use sofretu::build::{Attribute, Node, Question};
///
/// let (dial, car) = (Attribute::numbered(2), Node::numbered(1));
/// let question = Question::from(dial.of(car));
/// assert_eq!(question.bytes(), [0x22, 2, 0x13, 1, 0, 0x10]);
/// ```
///
/// A handle is written as its number, so a question is for the sheet that its handles' draft builds. Nothing is checked here: the library
/// refuses a question with this node or the parameter in it, or of over 256 bytes, by stop 12, and one that is not of base type by stop 13.
#[derive(Clone, Debug, PartialEq, Eq, Hash)]
#[must_use = "a question is to be asked"]
pub struct Question {
    bytes: Vec<u8>,
}

impl Question {
    /// The bytes.
    #[must_use]
    pub fn bytes(&self) -> &[u8] {
        &self.bytes
    }

    /// The question as the report program reads it: its length in two bytes, and its bytes.
    ///
    /// Two bytes can say 65,535 at most. Of a longer question so many bytes are written: it is answered as too long all the same.
    #[must_use]
    pub fn framed(&self) -> Vec<u8> {
        let length = u16::try_from(self.bytes.len()).unwrap_or(u16::MAX);
        let mut framed = length.to_le_bytes().to_vec();
        framed.extend(&self.bytes[..usize::from(length)]);
        framed
    }
}

impl<E: Into<Expression>> From<E> for Question {
    fn from(expression: E) -> Question {
        let bytes = expression.into().bytes().to_vec();
        Question { bytes }
    }
}

impl Deref for Question {
    type Target = [u8];

    fn deref(&self) -> &[u8] {
        &self.bytes
    }
}

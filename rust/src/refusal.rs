use crate::{meanings, Meaning};
use std::error::Error;
use std::fmt;

/// A refusal: its number, and its place (a line of a text, a field of a packet or table, or 0). Both are document 01's;
/// only 29, for a zero divisor, 30, for a name, an index or a run that no field has, 31, for a field that is still
/// read, and 34, for fields that do not go together, are document 02's.
///
/// ```
/// let refusal = umarekoza::Refusal { number: 24, place: 7 };
/// assert_eq!(refusal.to_string(), "refused 24 at 7");
/// ```
#[derive(Clone, Copy, Debug, PartialEq, Eq, Hash)]
pub struct Refusal {
    /// The number: 1 to 11, 21 to 31, or 34.
    pub number: u32,
    /// The line or field, counted from 1, or 0.
    pub place: u32,
}

impl Refusal {
    /// What the number means, and how to mend what is refused. None for a number that no refusal has.
    ///
    /// ```
    /// let refusal = umarekoza::Refusal { number: 28, place: 0 };
    /// assert_eq!(refusal.meaning().unwrap().what, "bits are left over behind the last field");
    /// ```
    pub fn meaning(self) -> Option<&'static Meaning> {
        meanings().iter().find(|meaning| meaning.number == self.number)
    }
}

impl fmt::Display for Refusal {
    fn fmt(&self, to: &mut fmt::Formatter<'_>) -> fmt::Result {
        write!(to, "refused {} at {}", self.number, self.place)
    }
}

impl Error for Refusal {}

//! The original refuses in words; the documents refuse in numbers.

/// A refusal that the original can give, with the document's number, and that of strips, which it does not have.
#[derive(Clone, Copy, Debug, PartialEq, Eq, PartialOrd, Ord)]
#[repr(u8)]
pub enum Refusal {
    LengthsDiffer = 1,
    Monotonicity = 2,
    Quadraticity = 3,
    TooFewPoints = 4,
    KnotNotFinite = 5,
    AverageNotFinite = 6,
    KnotsNotRising = 7,
    SeamTooLong = 8,
    NoPreviousCurve = 9,
    QueryIsNan = 12,
    QueryOutside = 13,
    Derivative = 14,
    StripEndsNotRising = 18,
}

use Refusal::*;

/// A word that only one of the original's messages holds, and how that message
/// begins where the word alone would leave two.
const TOLD_BY: [(&str, &str, Refusal); 12] = [
    ("", "equal", LengthsDiffer),
    ("", "monotonicity", Monotonicity),
    ("", "quadraticity", Quadraticity),
    ("", "single", TooFewPoints),
    ("x", "finite", KnotNotFinite),
    ("y", "finite", AverageNotFinite),
    ("", "increasing", KnotsNotRising),
    ("", "helpers", SeamTooLong),
    ("", "previous", NoPreviousCurve),
    ("", "evaluated", QueryIsNan),
    ("", "extrapolation", QueryOutside),
    ("", "derivative", Derivative),
];

impl Refusal {
    pub fn number(self) -> u8 {
        self as u8
    }

    /// Reads a message of the original. One that fits no refusal, or two, is a
    /// fault of this crate and stops it.
    pub fn of_message(message: &str) -> Refusal {
        let mut fits = TOLD_BY
            .iter()
            .filter(|(start, word, _)| message.starts_with(start) && message.contains(word));
        match (fits.next(), fits.next()) {
            (Some(&(_, _, refusal)), None) => refusal,
            (None, _) => panic!("no refusal is known by the message: {message}"),
            (Some(_), Some(_)) => panic!("two refusals are known by the message: {message}"),
        }
    }
}

#[cfg(original)]
impl From<crate::errors::Message> for Refusal {
    fn from(error: crate::errors::Message) -> Refusal {
        Refusal::of_message(&error.0)
    }
}

//! Why a call was refused.

use std::error::Error;
use std::fmt;

use crate::ffi;

macro_rules! refusals {
    ($($name:ident = $number:literal, $text:literal;)*) => {
        /// Why a call was refused: the first reason in the order of the call. A refused call has written nothing.
        #[derive(Clone, Copy, Debug, PartialEq, Eq, Hash)]
        #[non_exhaustive]
        #[repr(u8)]
        pub enum Refusal {
            $(#[doc = $text] $name = $number,)*
        }

        impl Refusal {
            /// What was wrong, in plain words.
            pub fn text(self) -> &'static str {
                match self {
                    $(Refusal::$name => $text,)*
                }
            }

            /// A call's own number: 0 is no refusal.
            pub(crate) fn told(number: u8) -> Result<(), Refusal> {
                match number {
                    0 => Ok(()),
                    $($number => Err(Refusal::$name),)*
                    _ => unreachable!("a call of the library answered {number}, which is no refusal's number"),
                }
            }
        }
    };
}

refusals! {
    LengthsDiffer = 1, "there are not as many averages as knots, or not as many ends as starts";
    MonotonicityOutside = 2, "the monotonicity is not a number from 0 to 1";
    QuadraticityOutside = 3, "the quadraticity is not a number from 0 to 1";
    TooFewPoints = 4, "there are fewer than two knots";
    KnotNotFinite = 5, "a knot is infinite or not a number";
    AverageNotFinite = 6, "an average is infinite or not a number";
    KnotsNotRising = 7, "a knot is not above the one before it";
    SeamTooLong = 8, "the seam leaves no period to build";
    NoPreviousCurve = 9, "past the first window a curve grows from a previous one, and there is none or it has no section";
    TooManyPoints = 10, "there are more than 4096 knots";
    BufferTooShort = 11, "a buffer is too short for what is to be written or read";
    QueryNotANumber = 12, "the point that is asked for is not a number";
    QueryOutside = 13, "the point that is asked for lies outside the knots, and extrapolation is off";
    DerivativeAsked = 14, "the method has no derivative";
    RecordNotLegal = 15, "a record's tag is not legal, or the record is not there";
    NoGivenNode = 16, "a sheet needs a given node at one end at least, and this one has none";
    StripEndsNotRising = 18, "the strip's first end is not below its second, or a place is past the last knot";
    MonthsNotPeriods = 19, "the months are not whole periods of 1, 3 or 12 months between January 2000 and December 2099";
    NotFinite = 21, "the answer is infinite or not a number";
    CutsNotInner = 28, "a cut is not an inner knot of the table, or not above the cut before it";
    AverageBelowZero = 29, "an average is below 0, and no curve at or above 0 can keep it, as the safe split promises";
    SplitUnknown = 30, "the split's number is none of 0, 1 and 2";
}

impl Refusal {
    /// The number by which every program knows this refusal.
    pub fn number(self) -> u8 {
        self as u8
    }
}

impl fmt::Display for Refusal {
    fn fmt(&self, f: &mut fmt::Formatter<'_>) -> fmt::Result {
        write!(f, "{} (refusal {})", self.text(), self.number())
    }
}

impl Error for Refusal {}

/// Why a call for many queries or strips was refused, and which of them was to blame. Such a call answers all of them or none.
#[derive(Clone, Copy, Debug, PartialEq, Eq, Hash)]
pub struct ManyRefused {
    /// Why.
    pub refusal: Refusal,
    /// The first query or strip that is refused, counted from 0; `None` where the curve is refused or a buffer, and so no single one is to
    /// blame.
    pub query: Option<usize>,
}

impl ManyRefused {
    /// What such a call told of so many queries: 0 is no refusal, and a query past the last is none.
    pub(crate) fn told(told: ffi::Many, count: usize) -> Result<(), ManyRefused> {
        Refusal::told(told.refusal).map_err(|refusal| ManyRefused {
            refusal,
            query: (told.query < count).then_some(told.query),
        })
    }
}

impl fmt::Display for ManyRefused {
    fn fmt(&self, f: &mut fmt::Formatter<'_>) -> fmt::Result {
        match self.query {
            Some(query) => write!(f, "number {query}, counted from 0: {}", self.refusal),
            None => self.refusal.fmt(f),
        }
    }
}

impl Error for ManyRefused {}

impl From<ManyRefused> for Refusal {
    fn from(many: ManyRefused) -> Refusal {
        many.refusal
    }
}

//! Shaped forward curves for gas and power.
//!
//! A market quotes one average for a whole month; a curve gives a price at every moment of it, and keeps the average. The
//! method is the convex monotone one of Hagan and West. What is called here are proved functions: whatever numbers go in, a
//! curve or a [`Refusal`] comes back.
//!
//! ```
//! use havgrunel::ConvexMonotone;
//!
//! let curve = ConvexMonotone::new(0.0, 1.0, false).interpolate(&[0.0, 1.0, 2.0], &[0.0, 1.0, 3.0])?;
//! assert_eq!(curve.value(0.5)?, 0.875);
//! assert_eq!(curve.primitive(2.0)?, 4.0);
//! assert_eq!(curve.value(-1.0).unwrap_err().number(), 13);
//! assert_eq!(curve.with_extrapolation(true).value(-1.0)?, 2.0);
//! # Ok::<(), havgrunel::Refusal>(())
//! ```
//!
//! Delivery months, quarters and years need no knots from the caller: [`ConvexMonotone::interpolate_months`] builds their curve by the
//! calendar, in days, and [`month_knots`] tells the knots.
//!
//! A long table may be built in sheets, and gives the very same curve: see [`ConvexMonotone::interpolate_in_sheets`] and
//! [`ConvexMonotone::sheet`].
//!
//! A build takes numbers of any size, and a curve stores what its formulas give, infinite or not a number included. No answer is so: a
//! price, a total or an average that is not finite is refused ([`Refusal::NotFinite`]), after all else that it could be refused for.
//!
//! The average price from one day to another is [`ConvexMonotoneInterpolation::strip`]. A curve that is built by
//! [`ConvexMonotone::interpolate_with_column`] keeps the total up to each knot, for strips between knots.
//!
//! Where prices are held above zero, [`Split`] says when a period may get a stretch of zero: by the original's rule, only
//! where the period then keeps its average, or such that no period falls below zero and none loses its average.
//!
//! [`ConvexMonotone`] and [`ConvexMonotoneInterpolation`] have the names and methods of the module that this library takes the place
//! of, and so have the traits. [`lent`] has the same calls over the caller's own buffers, with nothing allocated. [`Record`]
//! is a section as a curve stores it, with its prices at both knots and the total after it, and [`Section`] one by itself.
#![deny(unsafe_code)]
#![warn(missing_docs)]

mod curve;
/// Each call as the archive has it, with its number and all of its buffers: for programs that hold the library against another.
#[doc(hidden)]
#[allow(unsafe_code)]
pub mod ffi;
pub mod lent;
mod method;
mod months;
mod record;
mod refusal;
mod section;
mod traits;

pub use curve::ConvexMonotoneInterpolation;
pub use lent::Tail;
pub use method::{ConvexMonotone, Split};
pub use months::{MOST_MONTH_KNOTS, Period, month, month_knots};
pub use record::Record;
pub use refusal::{ManyRefused, Refusal};
pub use section::{Answers, Marked, Section};
pub use traits::{Interpolation, Interpolator, LocalInterpolator};

/// The numbers of a curve.
pub type Real = f64;

/// The most points that a curve can have.
pub const MOST_POINTS: usize = 4096;

/// The numbers of a section itself: the first ones of its record.
pub const FIELDS: usize = 24;

/// The numbers of a section's record in a curve: its own, its prices at the two knots of its period and the running total after it.
pub const SLOTS: usize = FIELDS + 3;

/// The node at an inner knot `here`, from the knots before and after it, the average of the period that ends at it and the next
/// one: what the sheets on both sides of a cut are given.
pub fn inner_node(before: f64, here: f64, after: f64, average: f64, next: f64) -> f64 {
    ffi::inner_node(before, here, after, average, next)
}

/// The square root, correctly rounded: a zero, +infinity and a NaN are their own roots, and below zero there is none, so that a
/// NaN comes back.
pub fn sqrt(a: f64) -> f64 {
    ffi::sqrt(a)
}

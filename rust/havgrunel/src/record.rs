//! A section as a curve stores it.

use crate::{Answers, FIELDS, Refusal, SLOTS, Section};

/// Where the numbers of its period stand in a record, behind the section's own.
const LEFT_PRICE: usize = FIELDS;
const RIGHT_PRICE: usize = FIELDS + 1;
const TOTAL: usize = FIELDS + 2;

/// A section as a curve stores it: 16 bits that say which kinds it is made of, and [`SLOTS`] numbers. The first [`FIELDS`] are those of the
/// section itself. Behind them stand three of its period: its prices at the left knot and at the right one, and the running total after it.
///
/// The price to the left of an inner knot is the right price of the section that ends there, and the price to its right is the left price of
/// the next one.
///
/// ```
/// use havgrunel::ConvexMonotone;
///
/// let curve = ConvexMonotone::new(0.0, 1.0, false).interpolate(&[0.0, 1.0, 2.0], &[0.0, 1.0, 3.0])?;
/// let first = curve.record(0)?;
/// assert_eq!((first.left_price(), first.right_price(), first.total()), (0.5, 2.0, 1.0));
/// # Ok::<(), havgrunel::Refusal>(())
/// ```
#[derive(Clone, Copy, Debug, PartialEq)]
pub struct Record {
    /// Its kinds and splits.
    pub tag: u16,
    /// Its numbers; those of the section itself that its kinds don't use are 0.
    pub slots: [f64; SLOTS],
}

impl Record {
    /// The section by itself.
    pub fn section(&self) -> Section {
        Section {
            tag: self.tag,
            fields: std::array::from_fn(|place| self.slots[place]),
        }
    }

    /// The price at the left knot of its period, as the curve stores it: what the section's own formula gives there, which may be infinite or
    /// a NaN.
    pub fn left_price(&self) -> f64 {
        self.slots[LEFT_PRICE]
    }

    /// The price at the right knot of its period, in the same way.
    pub fn right_price(&self) -> f64 {
        self.slots[RIGHT_PRICE]
    }

    /// The running total after its period, as the curve stores it: the sum from the left of each average times the length of its period, from
    /// which the next section starts.
    pub fn total(&self) -> f64 {
        self.slots[TOTAL]
    }

    /// All that the section answers at `x`, wherever that is, its price and its total each with its mark; refused by 15 where the tag is
    /// none that there is.
    pub fn answers(&self, x: f64) -> Result<Answers, Refusal> {
        self.section().answers(x)
    }

    /// The price at `x`. Refused in the order 15, 21, the last where the price is infinite or not a number.
    pub fn value(&self, x: f64) -> Result<f64, Refusal> {
        self.section().value(x)
    }

    /// The total up to `x`, refused in the same way for its own number.
    pub fn primitive(&self, x: f64) -> Result<f64, Refusal> {
        self.section().primitive(x)
    }

    /// The price that the section ends on, as it is stored; refused by 15 alone.
    pub fn f_next(&self) -> Result<f64, Refusal> {
        self.section().f_next()
    }
}

//! The careful split, written anew from document 02's rule and 000's formulas, with the processor's root. Nothing here asks the
//! library.

use crate::parabola::{Made, Period};

/// Whether a parabola that passes both of the original's tests is split, by its ratio.
pub type Rule = fn(f64) -> bool;

/// The rule of document 02: the ratio is above 0 and at most 1. Neither holds of a NaN.
pub fn in_period(ratio: f64) -> bool {
    ratio > 0.0 && ratio <= 1.0
}

/// The lower average at which a parabola with these ends touches zero, where there is one.
pub fn touching(f_prev: f64, f_next: f64) -> Option<f64> {
    let sum = -24.0 * (f_prev + f_next);
    let squares = 4.0 * (f_prev * f_prev + f_prev * f_next + f_next * f_next);
    let discriminant = sum * sum - 4.0 * 36.0 * squares;
    (discriminant >= 0.0).then(|| (-sum - discriminant.sqrt()) / (2.0 * 36.0))
}

/// What the original's two tests and then the rule make of the parabola over a period.
pub fn made(period: &Period, rule: Rule) -> Made {
    let zeros = period.discriminant() > 0.0;
    let root = touching(period.f_prev, period.f_next).filter(|_| zeros);
    root.filter(|root| rule(period.average / root))
        .map_or(Made::Whole, Made::Split)
}

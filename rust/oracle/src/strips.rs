//! Strips, which the original does not have: they are worked out from what it answers.

use crate::{Curve, Refusal};

/// The average price from `a` to `b`: the original's primitive at `b` less that at `a`, over `b - a`, each step rounded once.
///
/// It is refused as the query at `a` is, then as that at `b`, and last where `a` is not below `b`.
pub fn strip(curve: &Curve, a: f64, b: f64) -> Result<f64, Refusal> {
    let from = curve.primitive(a)?;
    let to = curve.primitive(b)?;
    if a < b {
        Ok((to - from) / (b - a))
    } else {
        Err(Refusal::StripEndsNotRising)
    }
}

/// The original's primitive at each knot of a curve.
pub fn column(curve: &Curve, x: &[f64]) -> Vec<f64> {
    let total = |&knot| curve.primitive(knot).expect("a knot is inside");
    x.iter().map(total).collect()
}

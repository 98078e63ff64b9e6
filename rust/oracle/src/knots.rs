//! What the record of a period adds to its section's own numbers.

use crate::{Curve, Settings, totals};

/// For each section of a curve of this table: its price at its left knot and at its right one, and the running total after its period,
/// read from the original bit for bit.
///
/// The prices are those that the section itself answers there, held or not. Totals depend on the table alone. Of two points the original
/// keeps no total at the last, and there it is the section's own primitive.
///
/// Panics where the table is refused, which has no curve.
pub fn knots(settings: &Settings, x: &[f64], y: &[f64], curve: &Curve) -> Vec<[f64; 3]> {
    let totals = totals(settings, x, y).expect("a table that has a curve has totals");
    let ends = x.iter().zip(&x[1..]).enumerate();
    ends.map(|(place, (&left, &right))| {
        let total = if x.len() == 2 {
            curve.section_primitive(place, right)
        } else {
            totals[place + 1]
        };
        let price = |x| curve.section_value(place, x);
        [price(left), price(right), total]
    })
    .collect()
}

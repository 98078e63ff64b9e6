//! Knots and curves of delivery months.

use super::{Buffers, Curve, Seam, Told};
use crate::{ConvexMonotone, Period, Refusal, ffi};

/// Writes the knots that [`month_knots`](crate::month_knots) tells from the start of `knots` on, and tells how many they are: one more than
/// periods, and never more than [`MOST_MONTH_KNOTS`](crate::MOST_MONTH_KNOTS). Refused in the order 19, 11.
pub fn month_knots(
    first: i64,
    last: i64,
    period: Period,
    knots: &mut [f64],
) -> Result<usize, Refusal> {
    let mut count = [0];
    let months = period.months();
    Refusal::told(ffi::month_knots(first, last, months, knots, &mut count))?;
    Ok(count[0])
}

/// Builds the curve of delivery periods, as [`build`](super::build) does over their knots, and writes these from the start of `knots` on;
/// there is one more than the curve has sections. `averages` has an entry for each knot, the first of which is not read, but must be
/// finite. Refused by 19, then as a build is; a `knots` that is too short is an 11 as well.
#[allow(clippy::too_many_arguments)]
pub fn build_months(
    first: i64,
    last: i64,
    period: Period,
    averages: &[f64],
    method: ConvexMonotone,
    hold: bool,
    seam: Option<Seam>,
    knots: &mut [f64],
    buffers: Buffers<'_>,
) -> Result<Curve, Refusal> {
    let mut told = Told::new();
    Refusal::told(ffi::build_months(
        first,
        last,
        period.months(),
        averages,
        method,
        hold,
        seam,
        knots,
        buffers,
        &mut told.sections,
        &mut told.tail,
    ))?;
    Ok(told.curve(hold))
}

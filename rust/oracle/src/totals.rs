//! The running totals, which the original hands from section to section.

use crate::{Refusal, Settings, build_with};

/// The total before each knot of a table, read from the original bit for bit.
///
/// Totals depend on the table alone. At quadraticity 1 and with no price held
/// above zero every section keeps the total that it starts from as it is, so
/// such a build of the same table tells them all but the last, which stands in
/// the extrapolation record. Of two points the original keeps no total at the
/// last: that record starts at the first, and zeros are told.
pub fn totals(settings: &Settings, x: &[f64], y: &[f64]) -> Result<Vec<f64>, Refusal> {
    let whole = build_with(settings, x, y, false, None)?;
    let telling = Settings {
        quadraticity: 1.0,
        positivity: false,
        ..*settings
    };
    let curve = build_with(&telling, x, y, false, None)?;
    let mut totals = Vec::with_capacity(x.len());
    for place in 0..curve.sections() {
        let record = curve.record(place);
        totals.push(match record.tag {
            0x0100 | 0x0200 => record.slots[14],
            0x2000 => record.slots[7],
            tag => panic!("a build at quadraticity 1 made a section with tag {tag:04x}"),
        });
    }
    let [_, total, _] = whole.extrapolation();
    totals.push(total);
    Ok(totals)
}

//! The node numbers, which the original works out and does not keep.

use crate::{Refusal, Seam, Settings, build_with};

/// The nodes of a table, read from the original bit for bit.
///
/// Nodes depend neither on the quadraticity nor on a held last period. At
/// quadraticity 1 every section keeps both of its end nodes as they are, so
/// such a build of the same table tells them all. Two points have no nodes in
/// the original; they are told as zeros.
pub fn nodes(
    settings: &Settings,
    x: &[f64],
    y: &[f64],
    seam: Option<Seam>,
) -> Result<Vec<f64>, Refusal> {
    build_with(settings, x, y, false, seam)?;
    if x.len() == 2 {
        return Ok(vec![0.0; 2]);
    }
    let telling = Settings {
        quadraticity: 1.0,
        ..*settings
    };
    let curve = build_with(&telling, x, y, false, seam)?;
    let mut nodes = Vec::with_capacity(x.len());
    for place in 0..curve.sections() {
        let record = curve.record(place);
        nodes.push(match record.tag {
            0x0200 => record.slots[13],
            0x2000 => record.slots[5],
            0x4000 | 0x5000 => record.slots[7],
            tag => panic!("a build at quadraticity 1 made a section with tag {tag:04x}"),
        });
    }
    nodes.push(curve.f_next(curve.sections() - 1));
    Ok(nodes)
}

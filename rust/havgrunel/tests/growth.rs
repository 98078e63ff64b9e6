//! A table that grows by a point at a time, with no original at hand: each curve is the one that a seam given by hand makes.

use havgrunel::lent::{self, Buffers, Seam};
use havgrunel::{ConvexMonotone, ConvexMonotoneInterpolation, SLOTS};

const KNOTS: [f64; 6] = [0.0, 1.0, 2.5, 3.0, 5.0, 5.5];
const AVERAGES: [f64; 6] = [0.0, 1.0, 3.0, 2.0, 2.5, 0.5];

/// The same table built by itself, held or not, with this seam.
fn by_hand(points: usize, hold: bool, seam: Option<Seam>) -> (Vec<f64>, Vec<u16>, Vec<f64>) {
    let (mut nodes, mut tags) = (vec![0.0; points], vec![0; points - 1]);
    let mut slots = vec![0.0; SLOTS * (points - 1)];
    let buffers = Buffers {
        nodes: &mut nodes,
        tags: &mut tags,
        slots: &mut slots,
    };
    let (x, y) = (&KNOTS[..points], &AVERAGES[..points]);
    lent::build(x, y, ConvexMonotone::default(), hold, seam, buffers).expect("builds");
    (nodes, tags, slots)
}

#[test]
fn a_curve_grows_from_the_one_before_it() {
    let (window, last) = (2, KNOTS.len());
    let mut grown: Option<ConvexMonotoneInterpolation> = None;
    for points in window + 1..=last {
        let (x, y) = (&KNOTS[..points], &AVERAGES[..points]);
        // Of a held curve all sections but the last are kept.
        let seam = grown.as_ref().map(|curve| {
            let count = curve.sections() - 1;
            let end = curve.record(count - 1).expect("there");
            Seam {
                count,
                node: end.f_next().expect("legal"),
            }
        });
        let method = ConvexMonotone::default();
        let next = method.local_interpolate(x, y, window, grown.as_ref(), last);
        let next = next.expect("grows");
        let (nodes, tags, slots) = by_hand(points, points != last, seam);
        assert_eq!(next.nodes(), nodes);
        assert!(next.records().map(|record| record.tag).eq(tags));
        assert!(next.records().flat_map(|record| record.slots).eq(slots));
        // What was kept did not change.
        if let Some(before) = &grown {
            let kept = before.sections() - 1;
            assert!(next.records().take(kept).eq(before.records().take(kept)));
        }
        grown = Some(next);
    }
    let whole = grown.expect("grew");
    assert_eq!(whole.sections(), last - 1);
    assert_ne!(whole.record(last - 2).expect("there").tag, 0x0100);
}

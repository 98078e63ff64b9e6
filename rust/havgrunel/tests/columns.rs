//! Columns: an entry is the total at its knot, and two of them tell the strip between two places. Compared bit for bit, any NaN matching any NaN.

#[allow(dead_code)]
mod asked;
#[allow(dead_code)]
mod columned;
mod drawn;

use asked::{OLD, all, bits, covering, finite};
use columned::{Built, Written, built, method, told_bits};
use havgrunel::lent;
use havgrunel::{ConvexMonotone, ConvexMonotoneInterpolation, Refusal, SLOTS};
use oracle::answers::rng::Rng;

/// The column holds the totals at the knots, and a strip between two places is the one between their knots, with extrapolation and without.
#[test]
fn between_two_places_the_column_tells_the_strip() {
    let mut rng = Rng::new(0x636f_6c75);
    let (mut compared, mut not_finite) = (0, 0);
    for _ in 0..1_500 {
        let mut built = built(&mut rng);
        let totals: Vec<f64> = built
            .knots
            .iter()
            .map(|&knot| built.total(knot).expect("answers at a knot"))
            .collect();
        assert_eq!(bits(built.column()), bits(&totals));
        for (place, (&knot, &total)) in built.knots.iter().zip(&totals).enumerate() {
            let due = told_bits(finite(total));
            assert_eq!(told_bits(built.primitive(knot)), due);
            assert_eq!(told_bits(lent::column_entry(built.column(), place)), due);
        }
        not_finite += totals.iter().filter(|total| !total.is_finite()).count();
        for _ in 0..20 {
            let points = built.knots.len() as u64;
            let (i, j) = (
                rng.below(points + 2) as usize,
                rng.below(points + 2) as usize,
            );
            let told = lent::strip_between(&built.knots, built.column(), i, j);
            if !(i < j && j < built.knots.len()) {
                assert_eq!(told, Err(Refusal::StripEndsNotRising), "from {i} to {j}");
                continue;
            }
            for extrapolates in [false, true] {
                built.curve.extrapolates = extrapolates;
                let by_knots = built.strip(built.knots[i], built.knots[j]);
                assert_eq!(told_bits(told), told_bits(by_knots), "from {i} to {j}");
                compared += 1;
            }
        }
    }
    assert!(
        compared > 10_000 && not_finite > 100,
        "{compared} strips compared, {not_finite} totals that are not finite"
    );
}

/// Whether a part of the record is split in such a way that its total at the left knot is not known beforehand: its first arm has no length, or its ratio
/// is not of ordinary size.
fn is_unusual(tag: u16, slots: &[f64], x: f64) -> bool {
    let ordinary = |ratio: f64| (2.0_f64.powi(-60)..=2.0_f64.powi(60)).contains(&ratio);
    let quadratic = tag & 0x1000 != 0 && !(x < slots[2] && ordinary(slots[12]));
    let other = tag & 0x0080 != 0 && !(x <= slots[22] && ordinary(slots[21]));
    quadratic || other
}

/// Long tables under positivity, with months at 0, at next to nothing and below 0 between dear ones: sections with an unusual split stand at any place, and
/// each has the total that the curve tells there.
#[test]
fn long_columns_with_unusual_splits() {
    let mut rng = Rng::new(0x756e_7573);
    let mut at_place = [0; 130];
    let (mut usual, mut other_totals) = (0, 0);
    for _ in 0..4_000 {
        let points = rng.pick(&[3, 14, 63, 64, 65, 66, 128, 129, 130, 131]);
        let cheap = rng.pick(&[0.0, 1.0e-300, 1.0e-20, 1.0e-9, -3.0]);
        let first = rng.pick(&[0.0, -40.0, 1.0e6, 1.0e15]);
        let knots: Vec<f64> = (0..points).map(|i| first + 7.0 * f64::from(i)).collect();
        let averages: Vec<f64> = (0..points)
            .map(|_| {
                if rng.chance(4) {
                    cheap
                } else {
                    rng.between(0.5, 60.0)
                }
            })
            .collect();
        let quadraticity = rng.pick(&[0.0, 0.3, 1.0]);
        let method = ConvexMonotone::new(quadraticity, rng.pick(&[0.0, 0.7, 1.0]), true);
        let mut written = Written::room(knots.len());
        let (buffers, column) = written.lent();
        let curve =
            lent::build_with_column(&knots, &averages, method, false, None, buffers, column);
        let curve = curve.expect("builds");
        let built = Built {
            knots,
            curve,
            written,
        };
        let total = |&knot: &f64| built.total(knot).expect("inside");
        let totals: Vec<f64> = built.knots.iter().map(total).collect();
        assert_eq!(bits(built.column()), bits(&totals));
        let mut told = vec![OLD; totals.len()];
        let due = all(totals.iter().copied().map(finite));
        assert_eq!(
            built.primitives(&built.knots, &mut told),
            due.as_ref().map(|_| ()).map_err(|&refused| refused)
        );
        assert_eq!(bits(&told), bits(&due.unwrap_or(vec![OLD; totals.len()])));
        let (knots, Written { tags, slots, .. }) = (&built.knots, &built.written);
        let mut before = 0.0;
        for (i, record) in slots.chunks(SLOTS).enumerate() {
            if is_unusual(tags[i], record, knots[i]) {
                at_place[i] += 1;
                other_totals += usize::from(totals[i].to_bits() != f64::to_bits(before));
            } else {
                usual += usize::from(tags[i] & 0x1080 != 0);
            }
            before = record[SLOTS - 1];
        }
    }
    assert!(
        at_place.iter().all(|&times| times > 50) && usual > 10_000 && other_totals > 1_000,
        "unusual splits by place {at_place:?}, {other_totals} with a total of their own; {usual} usual ones"
    );
}

fn same_curve(a: &ConvexMonotoneInterpolation, b: &ConvexMonotoneInterpolation) {
    assert_eq!(bits(a.nodes()), bits(b.nodes()));
    for (a, b) in a.records().zip(b.records()) {
        assert_eq!((a.tag, bits(&a.slots)), (b.tag, bits(&b.slots)));
    }
    assert_eq!(format!("{:?}", a.tail()), format!("{:?}", b.tail()));
}

/// The column of a curve that owns it, and the strips between all its places.
fn owns_its_column(curve: &ConvexMonotoneInterpolation) {
    let column = curve.column().expect("has one");
    let knots = curve.knots();
    for (place, &knot) in knots.iter().enumerate() {
        let section = |place: usize| curve.record(place).expect("there").section();
        let there = covering(knots, curve.tail(), section, knot).expect("legal");
        let total = there.primitive.number;
        assert_eq!(bits(&column[place..=place]), bits(&[total]));
        let due = told_bits(finite(total));
        assert_eq!(told_bits(curve.primitive(knot)), due);
        assert_eq!(told_bits(curve.total_at(place)), due);
    }
    assert_eq!(curve.total_at(knots.len()), Err(Refusal::BufferTooShort));
    for j in 0..knots.len() {
        for i in 0..j {
            let by_knots = curve.strip(knots[i], knots[j]);
            assert_eq!(told_bits(curve.strip_between(i, j)), told_bits(by_knots));
        }
    }
}

#[test]
fn curves_keep_their_columns() {
    let mut rng = Rng::new(0x6b65_6570);
    for _ in 0..300 {
        let (x, mut y) = drawn::table(&mut rng, 3, 8);
        y.iter_mut().for_each(|average| *average = average.abs());
        let method = method(&mut rng);
        let whole = method.interpolate_with_column(&x, &y).expect("builds");
        let without = method.interpolate(&x, &y).expect("builds");
        same_curve(&whole, &without);
        owns_its_column(&whole);
        assert_eq!(without.column(), None);
        assert_eq!(without.strip_between(0, 1), Err(Refusal::BufferTooShort));
        assert_eq!(without.total_at(0), Err(Refusal::BufferTooShort));
        let cut = method.interpolate_in_sheets(&x, &y, &[1]).expect("builds");
        assert_eq!(cut.column(), None);
        let far = whole.with_extrapolation(true);
        assert_eq!(
            far.column().map(bits),
            method
                .interpolate_with_column(&x, &y)
                .expect("builds")
                .column()
                .map(bits)
        );

        let window = 1 + rng.below(x.len() as u64 - 1) as usize;
        let mut grown: Option<ConvexMonotoneInterpolation> = None;
        for points in window + 1..=x.len() {
            let (x, y, last, before) = (&x[..points], &y[..points], x.len(), grown.as_ref());
            let next = method.local_interpolate_with_column(x, y, window, before, last);
            let next = next.expect("grows");
            let plain = method.local_interpolate(x, y, window, before, last);
            let plain = plain.expect("grows");
            same_curve(&next, &plain);
            owns_its_column(&next);
            // A curve grows from one with a column or from one without.
            grown = Some(if rng.chance(2) { next } else { plain });
        }
    }
}

//! What strips and columns are refused for, and in which order. A refused call writes nothing.

#[allow(dead_code)]
mod asked;
#[allow(dead_code)]
mod columned;
mod drawn;

use asked::{OLD, bits};
use columned::Written;
use havgrunel::lent::{self, Previous, Seam};
use havgrunel::{ConvexMonotone, MOST_POINTS, Refusal, SLOTS};

const NAN: f64 = f64::NAN;

/// A table of its own faults and a column that has no room for it: the table's faults come first, and nothing is written.
#[test]
fn a_short_column_is_told_last() {
    let (x, y) = ([0.0, 1.0, 2.0], [0.0, 1.0, 3.0]);
    let build = |m: f64, y: &[f64], seam: Option<Seam>, points: usize, column: usize| {
        let mut written = Written::room(points);
        let before = written.clone();
        let (buffers, room) = written.lent();
        let method = ConvexMonotone::new(0.3, m, true);
        let told =
            lent::build_with_column(&x, y, method, false, seam, buffers, &mut room[..column]);
        if told.is_err() {
            assert_eq!(written.beside_the_column(), before.beside_the_column());
            assert_eq!(bits(&written.column), bits(&before.column));
        }
        told.map_or_else(Refusal::number, |_| 0)
    };
    let seam = Some(Seam {
        count: 2,
        node: 1.0,
    });
    assert_eq!(build(NAN, &y[..2], seam, 2, 0), 1);
    assert_eq!(build(NAN, &y, seam, 2, 0), 2);
    assert_eq!(build(0.7, &[NAN, 1.0, 3.0], seam, 2, 0), 6);
    assert_eq!(build(0.7, &y, seam, 2, 0), 8);
    assert_eq!(build(0.7, &y, None, 2, 3), 11);
    assert_eq!(build(0.7, &y, None, 3, 0), 11);
    assert_eq!(build(0.7, &y, None, 3, 2), 11);
    assert_eq!(build(0.7, &y, None, 3, 3), 0);

    let grow = |previous: Option<Previous<'_>>, y: &[f64], column: usize| {
        let mut written = Written::room(3);
        let before = written.clone();
        let (buffers, room) = written.lent();
        let method = ConvexMonotone::default();
        let room = &mut room[..column];
        let told = lent::grow_with_column(&x, y, method, 1, previous, 3, buffers, room);
        if told.is_err() {
            assert_eq!(written.beside_the_column(), before.beside_the_column());
            assert_eq!(bits(&written.column), bits(&before.column));
        }
        told.map_or_else(Refusal::number, |_| 0)
    };
    let of = |tags: &'static [u16]| Previous {
        sections: 1,
        held: false,
        tags,
        slots: &[0.0; SLOTS],
    };
    assert_eq!(grow(None, &y[..2], 0), 9);
    assert_eq!(grow(Some(of(&[0])), &y[..2], 0), 15);
    assert_eq!(grow(Some(of(&[0x0100])), &y[..2], 0), 1);
    assert_eq!(grow(Some(of(&[0x0100])), &y, 2), 11);
    assert_eq!(grow(Some(of(&[0x0100])), &y, 3), 0);
}

/// Strips with every fault; each step mends the one just refused.
#[test]
fn strips_are_refused_in_order() {
    let days: Vec<f64> = (0..=MOST_POINTS as u32).map(f64::from).collect();
    let (x, y) = ([0.0, 1.0, 2.0], [0.0, 1.0, 3.0]);
    let mut written = Written::room(3);
    let method = ConvexMonotone::default();
    let curve = lent::build(&x, &y, method, false, None, written.lent().0).expect("builds");
    written.tags[1] = 0;
    let (few, slots) = (&written.tags[..1], &written.slots);
    let one = |knots: &[f64], tags: &[u16], a: f64, b: f64| {
        let told = lent::strip(knots, &curve, tags, slots, a, b);
        told.map_or_else(Refusal::number, |_| 0)
    };
    let many = |knots: &[f64], tags: &[u16], starts: &[f64], ends: &[f64]| {
        let mut answers = [OLD];
        let told = lent::strips(knots, &curve, tags, slots, starts, ends, &mut answers);
        assert!(told.is_ok() || answers == [OLD]);
        told.map_or_else(|many| many.refusal.number(), |_| 0)
    };
    let between = |knots: &[f64], column: &[f64], i: usize, j: usize| {
        lent::strip_between(knots, column, i, j).map_or_else(Refusal::number, |_| 0)
    };
    assert_eq!(many(&[], few, &[NAN], &[]), 1);
    for (knots, refusal) in [
        (&[][..], 4),
        (&[NAN][..], 4),
        (&[2.0, 2.0, NAN][..], 5),
        (&[2.0, 2.0, 3.0][..], 7),
        (&days[..], 10),
        (&x[..], 11),
    ] {
        assert_eq!(one(knots, few, NAN, NAN), refusal);
        assert_eq!(many(knots, few, &[NAN], &[NAN]), refusal);
        assert_eq!(between(knots, &[0.0; 2], 9, 9), refusal);
    }
    let tags = &written.tags[..];
    // More strips than there is room for, before the first of them.
    assert_eq!(many(&x, tags, &[NAN, NAN], &[NAN, NAN]), 11);
    for (a, b, refusal) in [
        (NAN, NAN, 12),
        (9.0, NAN, 13),
        (1.5, NAN, 15),
        (0.5, NAN, 12),
        (0.5, -9.0, 13),
        (2.0, 1.5, 15),
        (0.5, 0.25, 18),
        (0.5, 0.5, 18),
        (0.0, -0.0, 18),
        (0.25, 0.5, 0),
    ] {
        assert_eq!(one(&x, tags, a, b), refusal, "from {a} to {b}");
        assert_eq!(many(&x, tags, &[a], &[b]), refusal, "from {a} to {b}");
    }
    let column = [0.0, 1.0, 4.0];
    assert_eq!(between(&x, &column, 1, 1), 18);
    assert_eq!(between(&x, &column, 2, 1), 18);
    assert_eq!(between(&x, &column, 1, 3), 18);
    assert_eq!(between(&x, &column, 0, usize::MAX), 18);
    assert_eq!(between(&x, &column, usize::MAX, 0), 18);
    assert_eq!(between(&x, &column, 1, 2), 0);
}

//! Every refusal that a caller can meet, with its number and its words.

use std::error::Error;

use havgrunel::lent::{self, Buffers, Curve, Previous};
use havgrunel::{ConvexMonotone, FIELDS, MOST_POINTS, Record, Refusal, SLOTS, Section};

const NAN: f64 = f64::NAN;

fn refusal(q: f64, m: f64, x: &[f64], y: &[f64]) -> u8 {
    let built = ConvexMonotone::new(q, m, true).interpolate(x, y);
    built.map_or_else(Refusal::number, |_| 0)
}

/// A table with every fault; each step mends the one just refused.
#[test]
fn a_table_is_refused_in_order() {
    assert_eq!(refusal(NAN, NAN, &[NAN], &[]), 1);
    assert_eq!(refusal(NAN, NAN, &[NAN], &[NAN]), 2);
    assert_eq!(refusal(1.5, 1.0, &[NAN], &[NAN]), 3);
    assert_eq!(refusal(1.0, 1.0, &[NAN], &[NAN]), 4);
    assert_eq!(refusal(1.0, 1.0, &[], &[]), 4);
    assert_eq!(refusal(1.0, 1.0, &[2.0, NAN], &[NAN, 1.0]), 5);
    assert_eq!(refusal(1.0, 1.0, &[2.0, 2.0], &[NAN, 1.0]), 6);
    assert_eq!(refusal(1.0, 1.0, &[2.0, 2.0], &[0.0, 1.0]), 7);
    assert_eq!(refusal(-0.0, -0.0, &[2.0, 3.0], &[0.0, 1.0]), 0);
}

#[test]
fn the_most_points_are_built_and_one_more_is_refused() {
    let days: Vec<f64> = (0..=MOST_POINTS as u32).map(f64::from).collect();
    assert_eq!(refusal(0.3, 0.7, &days, &days), 10);
    let (most, method) = (&days[..MOST_POINTS], ConvexMonotone::default());
    let curve = method.interpolate(most, most).expect("builds");
    assert_eq!(curve.sections(), MOST_POINTS - 1);
    assert_eq!(curve.value(10.5), Ok(11.0));
    // The order's earlier faults come first, however many points there are.
    assert_eq!(refusal(0.3, NAN, &days, &days), 2);
    assert_eq!(refusal(0.3, 0.7, &days, most), 1);
}

#[test]
fn a_query_is_refused() {
    let method = ConvexMonotone::default();
    let curve = method.interpolate(&[0.0, 1.0, 2.0], &[0.0, 1.0, 3.0]);
    let curve = curve.expect("builds");
    for ask in [
        havgrunel::ConvexMonotoneInterpolation::value,
        havgrunel::ConvexMonotoneInterpolation::primitive,
    ] {
        assert_eq!(ask(&curve, NAN), Err(Refusal::QueryNotANumber));
        assert_eq!(ask(&curve, 2.5), Err(Refusal::QueryOutside));
        assert_eq!(ask(&curve, f64::NEG_INFINITY), Err(Refusal::QueryOutside));
        assert!(ask(&curve, 2.0).is_ok());
    }
    assert_eq!(curve.derivative(1.0), Err(Refusal::DerivativeAsked));
    assert_eq!(curve.derivative(NAN), Err(Refusal::DerivativeAsked));
    assert_eq!(curve.record(2), Err(Refusal::RecordNotLegal));
}

#[test]
fn growth_is_refused() {
    let (x, y) = ([0.0, 1.0, 2.0, 3.0], [0.0, 1.0, 3.0, 2.0]);
    let method = ConvexMonotone::default();
    let grown = |points: usize, y: &[f64], prev| {
        let grown = method.local_interpolate(&x[..points], y, 1, prev, 4);
        grown.map_or_else(Refusal::number, |_| 0)
    };
    let whole = method.interpolate(&x, &y).expect("builds");
    assert_eq!(grown(4, &y, None), 9);
    // Nothing of the previous curve is asked in the first window.
    assert_eq!(grown(2, &y[..2], None), 0);
    // All three sections of an unheld curve are kept, and four points have no more.
    assert_eq!(grown(4, &y, Some(&whole)), 8);
    assert_eq!(grown(4, &y[..3], Some(&whole)), 1);
}

#[test]
fn records_that_are_not_legal_are_refused() {
    let (slots, fields) = ([0.0; SLOTS], [0.0; FIELDS]);
    let mut legal = oracle::legal_tags();
    for tag in 0..=u16::MAX {
        let answer = Record { tag, slots }.answers(0.0);
        assert_eq!(answer.is_ok(), legal.contains(&tag), "tag {tag:04x}");
        let alone = Section { tag, fields }.answers(0.0);
        assert_eq!(alone.err(), answer.err());
        if let Err(refusal) = answer {
            assert_eq!(refusal, Refusal::RecordNotLegal);
        }
    }
    legal.dedup();
    assert_eq!(legal.len(), 25);

    let quadratic = Section::quadratic(0.0, 1.0, 0.5, 2.0, 1.0, 0.0);
    let constant = Section::everywhere_constant(2.0, 0.0, 0.0);
    let convex = Section::convex_monotone2(0.0, 1.0, -1.0, 5.0, 2.0, 0.5, 0.0);
    assert!(Section::combination(&quadratic, &convex, 0.25).is_ok());
    for (one, two) in [
        (&convex, &quadratic),
        (&quadratic, &quadratic),
        (&quadratic, &constant),
        (&Section { tag: 0, fields }, &convex),
        (&quadratic, &Section { tag: 0, fields }),
    ] {
        let both = Section::combination(one, two, 0.25);
        assert_eq!(both, Err(Refusal::RecordNotLegal));
    }
}

/// The slots of three points.
const ROOM: usize = 2 * SLOTS;

/// 11 and 15 of buffers that the caller owns.
#[test]
fn lent_buffers_are_refused() {
    let (x, y) = ([0.0, 1.0, 2.0], [0.0, 1.0, 3.0]);
    let method = ConvexMonotone::default();
    let (mut nodes, mut tags, mut slots) = ([0.0; 3], [0; 2], [0.0; ROOM]);
    let mut lend = |n: usize, t: usize, s: usize| {
        let buffers = Buffers {
            nodes: &mut nodes[..n],
            tags: &mut tags[..t],
            slots: &mut slots[..s],
        };
        lent::build(&x, &y, method, false, None, buffers)
    };
    assert_eq!(lend(2, 2, ROOM), Err(Refusal::BufferTooShort));
    assert_eq!(lend(3, 1, ROOM), Err(Refusal::BufferTooShort));
    assert_eq!(lend(3, 2, ROOM - 1), Err(Refusal::BufferTooShort));
    assert_eq!(lend(3, 2, 2 * (SLOTS - 1)), Err(Refusal::BufferTooShort));
    assert_eq!(lend(0, 0, 0), Err(Refusal::BufferTooShort));
    let curve: Curve = lend(3, 2, ROOM).expect("builds");

    let ask = |tags: &[u16], slots: &[f64]| lent::value(&x, &curve, tags, slots, 0.5);
    assert!(ask(&tags, &slots).is_ok());
    assert_eq!(ask(&tags[..1], &slots), Err(Refusal::BufferTooShort));
    for few in [ROOM - 1, 2 * (SLOTS - 1)] {
        let few = &slots[..few];
        assert_eq!(ask(&tags, few), Err(Refusal::BufferTooShort));
        assert_eq!(lent::record(3, few, 0), Err(Refusal::BufferTooShort));
    }
    assert_eq!(ask(&[0xffff, 0], &slots), Err(Refusal::RecordNotLegal));
    assert_eq!(lent::record(3, &slots, 2), Err(Refusal::RecordNotLegal));

    let (mut nodes, mut next_tags, mut next_slots) = ([0.0; 3], [0; 2], [0.0; ROOM]);
    let mut grow = |sections, tags: &[u16], slots: &[f64]| {
        let previous = Previous {
            sections,
            held: true,
            tags,
            slots,
        };
        let buffers = Buffers {
            nodes: &mut nodes,
            tags: &mut next_tags,
            slots: &mut next_slots,
        };
        lent::grow(&x, &y, method, 1, Some(previous), 9, buffers)
    };
    assert_eq!(grow(0, &tags, &slots), Err(Refusal::NoPreviousCurve));
    assert_eq!(grow(3, &tags, &slots), Err(Refusal::RecordNotLegal));
    let few = &slots[..2 * (SLOTS - 1)];
    assert_eq!(grow(2, &tags, few), Err(Refusal::RecordNotLegal));
    let no_kind = [0x0001, 0];
    assert_eq!(grow(2, &no_kind, &slots), Err(Refusal::RecordNotLegal));
    assert!(grow(2, &tags, &slots).is_ok());
}

#[test]
fn a_refusal_says_what_was_wrong() {
    let refusal = ConvexMonotone::default()
        .interpolate(&[1.0, 0.0], &[1.0, 1.0])
        .expect_err("is refused");
    assert_eq!(
        refusal.to_string(),
        "a knot is not above the one before it (refusal 7)"
    );
    let boxed: Box<dyn Error> = refusal.into();
    assert!(boxed.source().is_none());
}

/// A call for many says which was refused, where one of them is to blame, and goes where a refusal goes.
#[test]
fn a_refusal_of_many_says_which() {
    let curve = ConvexMonotone::default().interpolate(&[0.0, 1.0], &[0.0, f64::MAX]);
    let curve = curve.expect("builds").with_extrapolation(true);
    let ask = |xs: &[f64]| -> Result<(), Refusal> { Ok(curve.primitives(xs, &mut [0.0; 2])?) };
    assert_eq!(ask(&[0.5, 9.0]), Err(Refusal::NotFinite));
    let refused = curve
        .primitives(&[0.5, 9.0], &mut [0.0; 2])
        .expect_err("is refused");
    assert_eq!(
        refused.to_string(),
        "number 1, counted from 0: the answer is infinite or not a number (refusal 21)"
    );
    let refused = curve
        .primitives(&[0.5, 9.0], &mut [])
        .expect_err("is refused");
    assert_eq!(refused.query, None);
    assert_eq!(refused.to_string(), Refusal::BufferTooShort.to_string());
    let boxed: Box<dyn Error> = refused.into();
    assert!(boxed.source().is_none());
}

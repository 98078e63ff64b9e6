//! The figures of the requirements, through the safe crate.

use havgrunel::lent::{self, Buffers, Seam};
use havgrunel::{ConvexMonotone, Refusal, SLOTS, Section, Split, Tail, sqrt};

const KNOTS: [f64; 3] = [0.0, 1.0, 2.0];
const AVERAGES: [f64; 3] = [0.0, 1.0, 3.0];

fn plain() -> ConvexMonotone {
    ConvexMonotone::new(0.0, 1.0, false)
}

#[test]
fn p1_two_points_are_one_constant_section() {
    let method = ConvexMonotone::new(0.0, 0.0, false);
    let curve = method
        .interpolate(&[0.0, 2.0], &[9.0, 2.0])
        .expect("builds");
    assert_eq!(curve.sections(), 1);
    assert_eq!(curve.record(0).expect("there").tag, 0x0100);
    assert_eq!(curve.nodes(), [0.0, 0.0]);
    assert_eq!((curve.value(1.0), curve.primitive(1.0)), (Ok(2.0), Ok(2.0)));
    assert_eq!((curve.value(2.0), curve.primitive(2.0)), (Ok(2.0), Ok(4.0)));
}

#[test]
fn p2_three_points() {
    let curve = plain().interpolate(&KNOTS, &AVERAGES).expect("builds");
    assert_eq!(curve.knots(), KNOTS);
    assert_eq!(curve.nodes(), [0.5, 2.0, 3.5]);
    let tags: Vec<u16> = curve.records().map(|record| record.tag).collect();
    assert_eq!(tags, [0x2000, 0x2000]);
    assert_eq!(curve.value(0.5), Ok(0.875));
    assert_eq!(curve.value(1.5), Ok(3.125));
    let tail = Tail {
        value: 3.5,
        total: 4.0,
        from: 2.0,
    };
    assert_eq!(curve.tail(), tail);
}

#[test]
fn p3_a_knot_belongs_to_the_section_after_it() {
    let curve = plain().interpolate(&KNOTS, &AVERAGES).expect("builds");
    let second = curve.record(1).expect("there");
    assert_eq!(curve.value(1.0), second.value(1.0));
    assert_eq!(curve.primitive(1.0), second.primitive(1.0));
    assert_eq!(curve.value(-1.0), Err(Refusal::QueryOutside));
    assert!(!curve.allows_extrapolation());
    let curve = curve.with_extrapolation(true);
    assert!(curve.allows_extrapolation());
    assert_eq!(curve.value(-1.0), Ok(2.0));
}

#[test]
fn p5_to_p8_single_sections() {
    let low = Section::quadratic_min(0.0, 1.0, 4.0, 1.0, 0.5, 0.0);
    assert_eq!(low.value(0.25), Ok(0.25));
    assert_eq!(low.value(0.5), Ok(0.0));
    assert_eq!(low.value(1.0), Ok(1.0));
    let high = Section::quadratic_min(0.0, 1.0, 4.0, 1.0, 3.0, 0.0);
    assert_eq!((high.tag, high.fields[12]), (0x5000, 3.0));
    assert_eq!(high.value(0.75), Ok(1.5625));
    let second = Section::convex_monotone2(0.0, 1.0, -1.0, 5.0, 2.0, 0.5, 0.0);
    assert_eq!(second.value(0.75), Ok(2.5));
    let fourth = Section::convex_monotone4(0.0, 1.0, 1.0, 0.0, 1.0, 0.0, 0.0);
    let value = fourth.answers(0.0).expect("legal").value;
    assert!(value.number.is_nan() && !value.finite);
    assert_eq!(fourth.value(0.0), Err(Refusal::NotFinite));
}

#[test]
fn p9_roots() {
    assert_eq!(sqrt(2304.0), 48.0);
    assert_eq!(sqrt(2.0).to_bits(), 0x3ff6_a09e_667f_3bcd);
    assert_eq!(sqrt(f64::from_bits(1)).to_bits(), 0x1e60_0000_0000_0000);
    assert_eq!(sqrt(-0.0).to_bits(), (-0.0_f64).to_bits());
    assert!(sqrt(-1.0).is_nan());
}

#[test]
fn p10_a_seam_leaves_a_period_to_build() {
    let (mut nodes, mut tags, mut slots) = ([0.0; 3], [0; 2], [0.0; 2 * SLOTS]);
    let mut with = |count| {
        let buffers = Buffers {
            nodes: &mut nodes,
            tags: &mut tags,
            slots: &mut slots,
        };
        let seam = Some(Seam { count, node: 1.5 });
        lent::build(&KNOTS, &AVERAGES, plain(), false, seam, buffers)
    };
    assert_eq!(with(2), Err(Refusal::SeamTooLong));
    assert_eq!(with(usize::MAX), Err(Refusal::SeamTooLong));
    assert_eq!(with(1).map(|curve| curve.sections), Ok(2));
    assert_eq!(nodes[1], 1.5);
}

#[test]
fn the_two_defaults_are_the_methods() {
    let power = ConvexMonotone::new(0.3, 0.7, false);
    assert_eq!(ConvexMonotone::default(), power);
    let gas = ConvexMonotone::new(0.3, 0.7, true);
    assert_eq!(ConvexMonotone::gas(), gas);
    for method in [power, gas] {
        assert_eq!(method, method.with_split(Split::Original));
    }
}

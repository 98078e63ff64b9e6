//! The original's messages become the document's numbers, in its order.
#![cfg(original)]

use oracle::Refusal::*;
use oracle::{Refusal, Seam, Settings, build, build_with, default_settings, grow, nodes, strip};

const NAN: f64 = f64::NAN;

fn refusal(m: f64, q: f64, x: &[f64], y: &[f64], count: usize) -> Option<Refusal> {
    let settings = Settings {
        quadraticity: q,
        monotonicity: m,
        positivity: true,
    };
    let seam = Some(Seam { count, f_next: 1.0 });
    let told = nodes(&settings, x, y, seam).err();
    assert_eq!(build_with(&settings, x, y, true, seam).err(), told);
    told
}

/// A table with every fault; each step mends the one just refused.
#[test]
fn a_build_refuses_in_order() {
    let (x, y) = ([NAN], [NAN]);
    assert_eq!(refusal(NAN, NAN, &x, &[], 9), Some(LengthsDiffer));
    assert_eq!(refusal(NAN, NAN, &x, &y, 9), Some(Monotonicity));
    assert_eq!(refusal(1.0, 1.5, &x, &y, 9), Some(Quadraticity));
    assert_eq!(refusal(1.0, 0.0, &x, &y, 9), Some(TooFewPoints));
    let y = [NAN, 1.0];
    assert_eq!(refusal(1.0, 0.0, &[2.0, NAN], &y, 9), Some(KnotNotFinite));
    let x = [2.0, 2.0];
    assert_eq!(refusal(1.0, 0.0, &x, &y, 9), Some(AverageNotFinite));
    let y = [0.0, 1.0];
    assert_eq!(refusal(1.0, 0.0, &x, &y, 9), Some(KnotsNotRising));
    let x = [2.0, 3.0];
    assert_eq!(refusal(1.0, 0.0, &x, &y, 9), Some(SeamTooLong));
    assert_eq!(refusal(1.0, 0.0, &x, &y, 1), Some(SeamTooLong));
    assert_eq!(refusal(1.0, 0.0, &x, &y, 0), None);
    assert_eq!(refusal(-0.0, -0.0, &x, &y, 0), None);
}

#[test]
fn queries_refuse() {
    let settings = default_settings();
    let curve = build(&settings, &[0.0, 1.0], &[0.0, 1.0]).expect("builds");
    assert_eq!(curve.value(NAN), Err(QueryIsNan));
    assert_eq!(curve.primitive(NAN), Err(QueryIsNan));
    assert_eq!(curve.value(-1.0), Err(QueryOutside));
    assert_eq!(curve.primitive(f64::INFINITY), Err(QueryOutside));
    assert_eq!(curve.derivative(NAN), Err(Derivative));
    assert_eq!(curve.derivative(0.5), Err(Derivative));
    let curve = curve.with_extrapolation(true);
    assert!(curve.allows_extrapolation());
    assert_eq!(curve.value(-1.0), Ok(1.0));
    assert_eq!(curve.value(f64::INFINITY), Ok(1.0));
    assert_eq!(curve.value(NAN), Err(QueryIsNan));
}

/// The refusals of the first end come before those of the second, and that the ends do not rise comes last.
#[test]
fn strips_refuse_in_order() {
    let settings = default_settings();
    let curve = build(&settings, &[0.0, 1.0, 2.0], &[0.0, 1.0, 3.0]).expect("builds");
    assert_eq!(strip(&curve, NAN, 3.0), Err(QueryIsNan));
    assert_eq!(strip(&curve, 3.0, NAN), Err(QueryOutside));
    assert_eq!(strip(&curve, 1.0, NAN), Err(QueryIsNan));
    assert_eq!(strip(&curve, 1.0, -1.0), Err(QueryOutside));
    assert_eq!(strip(&curve, 1.0, 1.0), Err(StripEndsNotRising));
    assert_eq!(strip(&curve, 2.0, 0.0), Err(StripEndsNotRising));
    assert_eq!(StripEndsNotRising.number(), 18);
    assert_eq!(strip(&curve, 0.0, 2.0), Ok(2.0));
    let curve = curve.with_extrapolation(true);
    assert_eq!(strip(&curve, 3.0, -1.0), Err(StripEndsNotRising));
    assert_eq!(strip(&curve, NAN, NAN), Err(QueryIsNan));
    assert!(strip(&curve, -1.0, 3.0).is_ok());
}

#[test]
fn growth_refuses() {
    let settings = default_settings();
    let (x, y) = ([0.0, 1.0, 2.0], [0.0, 1.0, 3.0]);
    let first = grow(&settings, &x[..2], &y[..2], 1, None, 3).expect("first window");
    assert!(first.held() && first.seam().is_none());
    assert_eq!(
        grow(&settings, &x, &y, 1, None, 3).err(),
        Some(NoPreviousCurve)
    );
    let whole = grow(&settings, &x, &y, 1, Some(&first), 3).expect("grows");
    assert!(!whole.held());
    // A missing curve is seen before any fault of the table.
    assert_eq!(
        grow(&settings, &x, &y[..1], 1, None, 3).err(),
        Some(NoPreviousCurve)
    );
    assert_eq!(
        grow(&settings, &x, &y, 1, Some(&whole), 3).err(),
        Some(SeamTooLong)
    );
    let numbers = [LengthsDiffer, SeamTooLong, NoPreviousCurve, Derivative];
    assert_eq!(numbers.map(Refusal::number), [1, 8, 9, 14]);
}

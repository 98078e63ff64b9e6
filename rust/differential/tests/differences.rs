//! The list of docs/DIFFERENCES.md, each with the smallest input that shows it.

use std::panic::{self, UnwindSafe};

use havgrunel::lent::{self, Buffers, Curve, Seam};
use havgrunel::{ConvexMonotone, Refusal, SLOTS, Section, Split};
use oracle::{Convex, Quadratic, Recipe, Settings};

const PLAIN: Settings = Settings {
    quadraticity: 0.0,
    monotonicity: 0.0,
    positivity: false,
};

fn method() -> ConvexMonotone {
    ConvexMonotone::new(0.0, 0.0, false)
}

/// Whether there is an original to differ from; without it only this side is looked at.
fn at_hand() -> bool {
    if !oracle::AT_HAND {
        eprintln!("{}", oracle::NOT_AT_HAND);
    }
    oracle::AT_HAND
}

/// The original's answer, or nothing where it stopped.
fn original<T>(call: impl FnOnce() -> T + UnwindSafe) -> Option<T> {
    panic::catch_unwind(call).ok()
}

/// Whole numbers from 0 on.
fn days(points: u32) -> Vec<f64> {
    (0..points).map(f64::from).collect()
}

fn build(points: u32, seam: Option<Seam>) -> Result<Curve, Refusal> {
    let (x, y) = (days(points), vec![0.0; points as usize]);
    let (mut nodes, mut tags) = (y.clone(), vec![0; x.len()]);
    let mut slots = vec![0.0; SLOTS * x.len()];
    let buffers = Buffers {
        nodes: &mut nodes,
        tags: &mut tags,
        slots: &mut slots,
    };
    lent::build(&x, &y, method(), false, seam, buffers)
}

#[test]
fn more_than_4096_points() {
    assert_eq!(build(4096, None).map(|curve| curve.sections), Ok(4095));
    assert_eq!(build(4097, None), Err(Refusal::TooManyPoints));
    if at_hand() {
        let built = oracle::build(&PLAIN, &days(4097), &[0.0; 4097]);
        assert_eq!(built.map(|curve| curve.sections()), Ok(4096));
    }
}

#[test]
fn a_seam_count_of_the_largest_number() {
    let seam = Seam {
        count: usize::MAX,
        node: 0.0,
    };
    assert_eq!(build(2, Some(seam)), Err(Refusal::SeamTooLong));
    assert_eq!(build(3, Some(seam)), Err(Refusal::SeamTooLong));
    if !at_hand() {
        return;
    }
    let seam = oracle::Seam {
        count: usize::MAX,
        f_next: 0.0,
    };
    let built = |points: u32| {
        original(move || {
            let y = vec![0.0; points as usize];
            let built = oracle::build_with(&PLAIN, &days(points), &y, false, Some(seam));
            built.map(|curve| curve.sections())
        })
    };
    // The sum stops a debug build. A release build wraps and then builds, or reads beyond its nodes and stops.
    let two = if cfg!(debug_assertions) {
        None
    } else {
        Some(Ok(1))
    };
    assert_eq!(built(2), two);
    assert_eq!(built(3), None);
    // One less is refused on both sides.
    let less = oracle::Seam {
        count: usize::MAX - 1,
        ..seam
    };
    let built = oracle::build_with(&PLAIN, &days(2), &[0.0; 2], false, Some(less));
    assert_eq!(built.err(), Some(oracle::Refusal::SeamTooLong));
}

#[test]
fn localisation_of_the_largest_number() {
    for points in 0..3 {
        let (x, y) = (days(points), vec![0.0; points as usize]);
        let grown = method().local_interpolate(&x, &y, usize::MAX, None, 0);
        assert_eq!(grown.err(), Some(Refusal::NoPreviousCurve));
        if !at_hand() {
            continue;
        }
        let grown = original(move || {
            let grown = oracle::grow(&PLAIN, &x, &y, usize::MAX, None, 0);
            grown.err()
        });
        // A release build wraps: no points are then the first window.
        let due = match points {
            _ if cfg!(debug_assertions) => None,
            0 => Some(Some(oracle::Refusal::TooFewPoints)),
            _ => Some(Some(oracle::Refusal::NoPreviousCurve)),
        };
        assert_eq!(grown, due);
    }
}

#[test]
fn the_weight_of_a_combination() {
    let quadratic = [0.0, 1.0, 0.5, 2.0, 1.0, 0.0];
    let convex = [0.0, 1.0, -1.0, 5.0, 2.0, 0.5, 0.0];
    let [a, b, c, d, e, f] = quadratic;
    let one = Section::quadratic(a, b, c, d, e, f);
    let [a, b, c, d, e, f, g] = convex;
    let two = Section::convex_monotone2(a, b, c, d, e, f, g);
    for weight in [0.0, 1.0, -1.0, f64::NAN] {
        let both = Section::combination(&one, &two, weight).expect("any weight");
        if !at_hand() {
            continue;
        }
        let stopped = original(move || oracle::combination_accepts(weight)).is_none();
        assert_eq!(stopped, cfg!(debug_assertions));
        let parts = (Quadratic::Plain(quadratic), Convex::Two(convex));
        let judged = oracle::section(&Recipe::Combination(weight, parts.0, parts.1));
        let value = both.answers(0.75).expect("legal").value;
        assert!(oracle::words::same(value.number, judged.value(0.75)));
        assert_eq!(value.finite, !weight.is_nan());
    }
}

/// The original's default has positivity on, and is the gas default here. The default here has it off: a strip below 0 stays as it traded.
#[test]
fn the_default() {
    let (x, y) = ([0.0, 1.0, 2.0], [0.0, -1.0, -1.0]);
    let at_start = |method: ConvexMonotone| {
        let curve = method.interpolate(&x, &y).expect("builds");
        curve.value(0.0)
    };
    let free = ConvexMonotone::default();
    assert_eq!(free, ConvexMonotone::new(0.3, 0.7, false));
    assert_eq!(at_start(free), Ok(-1.0));
    let gas = ConvexMonotone::gas();
    assert_eq!(gas, ConvexMonotone::new(0.3, 0.7, true));
    assert_eq!(at_start(gas), Ok(0.0));
    if at_hand() {
        assert_eq!(differential::defaults::compare(), None);
        let curve = oracle::build(&oracle::default_settings(), &x, &y).expect("builds");
        assert!(oracle::words::same(0.0, curve.value(0.0).expect("inside")));
    }
}

/// The original has one rule of when a parabola is split, and the library a second one beside it.
#[test]
fn the_careful_split() {
    let numbers = [0.0, 1.0, 4.0, 1.0, 3.0, 0.0];
    let [a, b, c, d, e, f] = numbers;
    let original_rule = Section::quadratic_min(a, b, c, d, e, f);
    assert_eq!(original_rule.value(0.75), Ok(1.5625));
    let careful = Section::quadratic_min_careful(a, b, c, d, e, f);
    assert_eq!(careful.value(0.75), Ok(2.3125));
    if at_hand() {
        let judged = oracle::section(&Recipe::Quadratic(Quadratic::Min(numbers)));
        assert!(oracle::words::same(1.5625, judged.value(0.75)));
    }
}

/// The library has a third rule beside it, and a refusal that goes with that: no average may be below 0.
#[test]
fn the_safe_split() {
    let (x, y) = ([0.0, 1.0, 2.0, 3.0], [0.0, 4.0, 0.0, 4.0]);
    let positive = ConvexMonotone::new(0.0, 0.7, true);
    let safe = positive.with_split(Split::Safe);
    let curve = safe.interpolate(&x, &y).expect("builds");
    assert_eq!(curve.value(1.0), Ok(0.0));
    let below = [0.0, 4.0, -1.0, 4.0];
    let refused = safe.interpolate(&x, &below).err();
    assert_eq!(refused, Some(Refusal::AverageBelowZero));
    assert!(positive.interpolate(&x, &below).is_ok());
    if at_hand() {
        let settings = Settings {
            monotonicity: 0.7,
            positivity: true,
            ..PLAIN
        };
        // The month that traded at 0 is squeezed to nothing, and has no price at its first knot.
        let curve = oracle::build(&settings, &x, &y).expect("builds");
        assert!(curve.value(1.0).is_ok_and(f64::is_nan));
        assert!(oracle::build(&settings, &x, &below).is_ok());
    }
}

/// Both are NaNs. Which bits they have is the processor's and the compiler's choice, so nothing is said of them.
#[test]
fn a_nan_is_a_nan() {
    let (x, y) = ([0.0, 1.0, 2.0], [0.0, 2.0_f64.powi(1023), 0.0]);
    let curve = method().interpolate(&x, &y).expect("builds");
    let answers = curve.record(0).expect("there").answers(1.0);
    assert!(answers.expect("legal").value.number.is_nan());
    if at_hand() {
        let curve = oracle::build(&PLAIN, &x, &y).expect("builds");
        assert!(curve.section_value(0, 1.0).is_nan());
    }
}

/// The original tells an infinite number as any other. The library builds the same curve, and refuses that answer.
#[test]
fn an_answer_that_is_not_finite() {
    let (x, y) = ([0.0, 1.0, 2.0], [0.0, 0.0, f64::MAX]);
    let curve = method().interpolate(&x, &y).expect("builds");
    assert_eq!(curve.value(0.5), Err(Refusal::NotFinite));
    let answers = curve.record(0).expect("there").answers(0.5);
    let value = answers.expect("legal").value;
    assert_eq!((value.number, value.finite), (f64::INFINITY, false));
    if at_hand() {
        let curve = oracle::build(&PLAIN, &x, &y).expect("builds");
        assert_eq!(curve.value(0.5), Ok(f64::INFINITY));
    }
}

/// The original owns its curve; these are refusals for what only lent buffers can be.
#[test]
fn lent_buffers_and_records() {
    let (x, y) = ([0.0, 1.0], [0.0, 0.0]);
    let (mut nodes, mut tags, mut slots) = ([0.0; 2], [0; 1], [0.0; SLOTS]);
    let buffers = Buffers {
        nodes: &mut nodes,
        tags: &mut tags,
        slots: &mut slots[..SLOTS - 1],
    };
    let short = lent::build(&x, &y, method(), false, None, buffers);
    assert_eq!(short, Err(Refusal::BufferTooShort));
    let buffers = Buffers {
        nodes: &mut nodes,
        tags: &mut tags,
        slots: &mut slots,
    };
    let curve = lent::build(&x, &y, method(), false, None, buffers).expect("builds");
    let ask = |x: &[f64], tags: &[u16]| lent::value(x, &curve, tags, &slots, 0.0);
    assert_eq!(ask(&x, &tags), Ok(0.0));
    assert_eq!(ask(&x[..1], &tags), Err(Refusal::TooFewPoints));
    assert_eq!(
        ask(&[0.0, f64::INFINITY], &tags),
        Err(Refusal::KnotNotFinite)
    );
    assert_eq!(ask(&[0.0, 0.0], &tags), Err(Refusal::KnotsNotRising));
    assert_eq!(ask(&x, &[]), Err(Refusal::BufferTooShort));
    assert_eq!(ask(&x, &[0]), Err(Refusal::RecordNotLegal));
}

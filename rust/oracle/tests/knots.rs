//! The prices at both knots of every section, and the totals after it, as the original has them.
#![cfg(original)]

use oracle::answers::rng::Rng;
use oracle::words::bits;
use oracle::{Curve, Seam, Settings, build, build_with, knots, section_of};

/// What is told of each section, as bits.
fn told(settings: &Settings, x: &[f64], y: &[f64], curve: &Curve) -> Vec<[u64; 3]> {
    let told = knots(settings, x, y, curve).into_iter();
    told.map(|knots| knots.map(bits)).collect()
}

/// Prices that the formulas of `build` give, worked out by hand.
#[test]
fn a_parabola_for_each_period() {
    let settings = Settings {
        quadraticity: 1.0,
        monotonicity: 1.0,
        positivity: false,
    };
    let (x, y) = ([0.0, 1.0, 2.0], [0.0, 1.0, 3.0]);
    let curve = build(&settings, &x, &y).expect("builds");
    let due = [[0.5, 2.0, 1.0], [2.0, 3.5, 4.0]];
    assert_eq!(knots(&settings, &x, &y, &curve), due);
    let held = build_with(&settings, &x, &y, true, None).expect("builds");
    let due = [[0.5, 2.0, 1.0], [3.0, 3.0, 4.0]];
    assert_eq!(knots(&settings, &x, &y, &held), due);
}

#[test]
fn two_points() {
    let settings = oracle::default_settings();
    let (x, y) = ([1.0, 3.5], [7.0, 2.0]);
    for hold in [false, true] {
        let curve = build_with(&settings, &x, &y, hold, None).expect("builds");
        assert_eq!(knots(&settings, &x, &y, &curve), [[2.0, 2.0, 5.0]]);
    }
}

/// Knots 0 to 3 and averages 0, 2, 0, 2: the period that traded at 0 has a NaN at its left knot.
#[test]
fn what_is_no_number_is_told_too() {
    let settings = Settings {
        quadraticity: 0.0,
        monotonicity: 0.7,
        positivity: true,
    };
    let (x, y) = ([0.0, 1.0, 2.0, 3.0], [0.0, 2.0, 0.0, 2.0]);
    let curve = build(&settings, &x, &y).expect("builds");
    let [_, [left, _, total], _] = knots(&settings, &x, &y, &curve)[..] else {
        panic!("three sections are told");
    };
    assert!(left.is_nan());
    assert_eq!(total, 2.0);
}

/// Whatever the settings, held or not, and from a seam or not. A query at a knot is answered by the section behind it.
#[test]
fn prices_are_those_of_the_records_and_totals_are_sums_from_the_left() {
    let mut rng = Rng::new(0x6b6e);
    for _ in 0..500 {
        let points = 2 + rng.below(20) as usize;
        let mut at = rng.between(-5.0, 5.0);
        let (mut x, mut y) = (Vec::new(), Vec::new());
        for _ in 0..points {
            at += rng.between(0.01, 2.0);
            x.push(at);
            y.push(match rng.below(4) {
                0 => rng.pick(&[f64::MAX, -1.0e300, 1.0e-300, 0.0, -0.0]),
                _ => rng.between(-2.0, 20.0),
            });
        }
        let settings = Settings {
            quadraticity: rng.pick(&[0.0, 0.3, 1.0]),
            monotonicity: rng.unit(),
            positivity: rng.chance(2),
        };
        let seam = (points > 2 && rng.chance(2)).then(|| Seam {
            count: 1 + rng.below(points as u64 - 2) as usize,
            f_next: rng.between(-2.0, 20.0),
        });
        let curve = build_with(&settings, &x, &y, rng.chance(2), seam).expect("builds");
        let mut total = 0.0;
        let due: Vec<[u64; 3]> = (0..points - 1)
            .map(|place| {
                let (left, right) = (x[place], x[place + 1]);
                total += y[place + 1] * (right - left);
                let section = section_of(&curve.record(place)).expect("a section's own record");
                let price = curve.value(left).expect("a knot is inside");
                assert_eq!(bits(price), bits(section.value(left)));
                [price, section.value(right), total].map(bits)
            })
            .collect();
        assert_eq!(told(&settings, &x, &y, &curve), due);
    }
}

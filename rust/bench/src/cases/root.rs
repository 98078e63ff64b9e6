//! The square root, against the processor's own, which is what the original takes and is always at hand.

use std::hint::black_box;

use oracle::answers::rng::Rng;

use crate::report::Report;
use crate::same;

const ROOTS: usize = 4096;

pub fn rows(report: &mut Report) {
    let rng = &mut Rng::new(2);
    // Every bit pattern of a positive finite number is as likely as any other, so that every exponent occurs.
    let all = (0..ROOTS).map(|_| f64::from_bits(1 + rng.below((0x7ff << 52) - 1)));
    let all: Vec<f64> = all.collect();
    let prices: Vec<f64> = (0..ROOTS).map(|_| rng.between(0.01, 1000.0)).collect();
    for (name, numbers) in [("root, all exponents", all), ("root, 0.01 to 1000", prices)] {
        if !report.wants(name) {
            continue;
        }
        let mine: Vec<f64> = numbers.iter().map(|&a| havgrunel::sqrt(a)).collect();
        let other: Vec<f64> = numbers.iter().map(|&a| a.sqrt()).collect();
        same::numbers(name, &mine, &other);
        let mut ours = || {
            for &a in &numbers {
                black_box(havgrunel::sqrt(black_box(a)));
            }
        };
        let mut theirs = || {
            for &a in &numbers {
                black_box(black_box(a).sqrt());
            }
        };
        report.row(
            name.to_string(),
            "root",
            ROOTS,
            &mut ours,
            Some(&mut theirs),
        );
    }
}

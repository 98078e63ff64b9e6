//! Numbers whose roots are worth replaying.

use std::collections::BTreeSet;

use super::Answers;
use super::rng::Rng;
use crate::{root, words};

const SEED: u64 = 0x0072_6f6f_7473;
const DIGITS: u64 = (1 << 52) - 1;
const LARGEST: u64 = 0x7fef_ffff_ffff_ffff;
const SIGN: u64 = 1 << 63;

pub fn write() -> Answers {
    let mut rng = Rng::new(SEED);
    let groups = [
        ("two of three exponents", exponents(&mut rng)),
        ("powers of two", powers()),
        ("squares and neighbours", squares(&mut rng)),
        ("halfway neighbours", halfway(&mut rng)),
        ("all-ones significands", ones(&mut rng)),
        ("subnormal", subnormals(&mut rng)),
        ("zero, infinite, not a number", special()),
        ("negative", negative(&mut rng)),
    ];
    let mut told = BTreeSet::new();
    let mut lines = String::new();
    let mut counts = Vec::new();
    for (name, group) in groups {
        let mut count = 0;
        for a in group {
            if told.insert(a) {
                lines.push('r');
                words::push(&mut lines, a);
                words::push_floats(&mut lines, &[root(f64::from_bits(a))]);
                lines.push('\n');
                count += 1;
            }
        }
        assert!(count > 0, "no root was written for: {name}");
        counts.push((format!("roots, {name}"), count));
    }
    Answers { lines, counts }
}

/// One number of each size of a subnormal, and of two exponents of three, odd ones and even ones alike.
fn exponents(rng: &mut Rng) -> Vec<u64> {
    let mut group = Vec::new();
    for size in 0..52 {
        let top = 1 << size;
        group.push(top | rng.word() & (top - 1));
    }
    for exponent in (1..2047).filter(|exponent| exponent % 3 != 0) {
        group.push(exponent << 52 | rng.word() & DIGITS);
    }
    group
}

/// Exact powers, at odd and even exponents in turn.
fn powers() -> Vec<u64> {
    let mut group: Vec<u64> = (0..52).step_by(3).map(|size| 1 << size).collect();
    group.extend((1..2047).step_by(11).map(|exponent: u64| exponent << 52));
    group.extend((1015..1032).map(|exponent: u64| exponent << 52));
    group.push(2046 << 52);
    group
}

fn with_neighbours(a: u64) -> [u64; 3] {
    [a - 1, a, a + 1]
}

fn squares(rng: &mut Rng) -> Vec<u64> {
    let mut group = Vec::new();
    for root in [1.0, 2.0, 3.0, 10.0, 48.0, 94_906_265.0_f64] {
        group.extend(with_neighbours((root * root).to_bits()));
    }
    for _ in 0..27 {
        // At most 26 bits, so that the square is exact.
        let size = rng.below(26) + 1;
        let root = (1 << (size - 1)) | rng.below(1 << (size - 1));
        // An even power of two keeps it a square.
        let square = ((root * root) as f64).to_bits();
        let up = 2 * rng.below(950);
        group.extend(with_neighbours(square - (960 << 52) + (up << 52)));
    }
    group
}

/// The numbers around the square of a point midway between two roots: there the
/// last bit of the root is decided.
fn halfway(rng: &mut Rng) -> Vec<u64> {
    let mut group = Vec::new();
    for _ in 0..47 {
        let root = 1 << 52 | rng.word() & DIGITS;
        let twice = u128::from(2 * root + 1);
        let square = twice * twice;
        let length = 128 - square.leading_zeros();
        let dropped = length - 53;
        let digits = (square >> dropped) as u64;
        // The square is digits * 2^dropped; an even step keeps its root's digits.
        let step = 2 * rng.below(900) as i64 - 1060;
        let exponent = (1075 + i64::from(dropped) + step) as u64;
        assert!((2..2045).contains(&exponent), "a normal number");
        let low = exponent << 52 | digits & DIGITS;
        group.extend([low - 1, low, low + 1, low + 2]);
    }
    group
}

fn ones(rng: &mut Rng) -> Vec<u64> {
    let mut group = Vec::new();
    for exponent in [1, 2, 1021, 1022, 1023, 1024, 1025, 1026, 2045, 2046] {
        group.push(exponent << 52 | DIGITS);
        group.push((exponent << 52 | DIGITS) - 1);
    }
    for parity in 0..2 {
        for _ in 0..15 {
            let exponent = 2 * (1 + rng.below(1022)) + parity;
            group.push(exponent << 52 | DIGITS);
        }
    }
    group
}

fn subnormals(rng: &mut Rng) -> Vec<u64> {
    let mut group = vec![1, 2, 3, 4, 5, 8, 9, 15, 16, 17];
    group.extend([DIGITS - 1, DIGITS, DIGITS + 1, DIGITS + 2]);
    for size in 1..53 {
        group.push((1 << size) - 1);
        group.push(rng.below(1 << size) | 1);
    }
    group
}

fn special() -> Vec<u64> {
    let infinity = f64::INFINITY.to_bits();
    let mut group = vec![0, SIGN, LARGEST, infinity, SIGN | infinity];
    // Signalling and quiet, with digits at either end, of both signs.
    for digits in [1, 1 << 50, (1 << 51) - 1, 1 << 51, 1 << 51 | 1, DIGITS] {
        group.push(infinity | digits);
        group.push(SIGN | infinity | digits);
    }
    group
}

fn negative(rng: &mut Rng) -> Vec<u64> {
    let one = 1.0_f64.to_bits();
    let mut group = vec![1, 2, DIGITS, DIGITS + 1, one - 1, one, one + 1, LARGEST];
    for size in (4..52).step_by(8) {
        group.push(1 << size | rng.below(1 << size));
    }
    for _ in 0..12 {
        group.push((1 + rng.below(2046)) << 52 | rng.word() & DIGITS);
    }
    group.iter().map(|a| SIGN | a).collect()
}

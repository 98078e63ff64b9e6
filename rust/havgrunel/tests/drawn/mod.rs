//! Tables drawn at random, for the tests that hold two ways of building one against each other.

use oracle::answers::rng::Rng;

/// A price: mostly plain, sometimes of few bits, so that tests are met exactly, and sometimes at an end of the number range.
pub fn price(rng: &mut Rng, style: u64) -> f64 {
    match style {
        0 => rng.between(-2.0, 20.0),
        1 => rng.whole(0, 4),
        2 => rng.pick(&[0.0, 0.25, 8.0, 20.0]),
        3 => rng.pick(&[f64::MAX, -1.0e300, 1.0e-300, 0.0, -0.0, 3.0]),
        _ => rng.between(5.0, 6.0),
    }
}

/// A table of `fewest` points, or of up to `more` others.
pub fn table(rng: &mut Rng, fewest: u64, more: u64) -> (Vec<f64>, Vec<f64>) {
    let style = rng.below(5);
    let mut at = rng.between(-5.0, 5.0);
    let points = fewest + rng.below(more + 1);
    let neat = rng.chance(3);
    let mut next = || {
        at = if neat {
            at.floor() + rng.pick(&[1.0, 2.0, 31.0])
        } else {
            at + rng.between(0.01, 2.0)
        };
        (at, price(rng, style))
    };
    (0..points).map(|_| next()).unzip()
}

//! The second text compiles and runs; it is asked in earnest later.
#![cfg(original)]

use oracle::Interpolation;
use oracle::cubic::{CubicDerivativeApprox, CubicInterpolation};

/// The parabolic scheme gives a parabola back.
#[test]
fn a_parabola_comes_back() {
    let x = vec![0.0, 1.0, 2.0, 4.0];
    let y = x.iter().map(|x| x * x).collect();
    let curve = CubicInterpolation::new(x, y, CubicDerivativeApprox::Parabolic).expect("builds");
    for at in [0.0, 0.5, 1.5, 3.0, 4.0] {
        let value = curve.value(at).expect("in range");
        assert!((value - at * at).abs() < 1e-12, "{value} at {at}");
    }
}

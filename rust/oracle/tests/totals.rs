//! The totals that the original hands on are sums from the left, whatever the settings.
#![cfg(original)]

use oracle::answers::rng::Rng;
use oracle::words::bits;
use oracle::{Refusal, Settings, totals};

fn told(settings: &Settings, x: &[f64], y: &[f64]) -> Vec<u64> {
    let totals = totals(settings, x, y).expect("builds");
    totals.into_iter().map(bits).collect()
}

#[test]
fn totals_are_sums_from_the_left() {
    let mut rng = Rng::new(0x707a);
    for _ in 0..500 {
        let points = 3 + rng.below(20);
        let (mut at, mut total) = (rng.between(-5.0, 5.0), 0.0);
        let (mut x, mut y, mut due) = (Vec::new(), Vec::new(), Vec::new());
        for place in 0..points {
            let before = at;
            at += rng.between(0.01, 2.0);
            let average = match rng.below(4) {
                0 => rng.pick(&[f64::MAX, -1.0e300, 1.0e-300, 0.0, -0.0]),
                _ => rng.between(-2.0, 20.0),
            };
            if place > 0 {
                total += average * (at - before);
            }
            due.push(bits(total));
            x.push(at);
            y.push(average);
        }
        for quadraticity in [0.0, rng.unit(), 1.0] {
            for positivity in [false, true] {
                let settings = Settings {
                    quadraticity,
                    monotonicity: rng.unit(),
                    positivity,
                };
                assert_eq!(told(&settings, &x, &y), due);
            }
        }
    }
}

#[test]
fn two_points_and_refused_tables() {
    let settings = oracle::default_settings();
    assert_eq!(
        totals(&settings, &[0.0, 2.0], &[1.0, 1.0]),
        Ok(vec![0.0; 2])
    );
    let refused = totals(&settings, &[0.0, 0.0], &[1.0, 1.0]);
    assert_eq!(refused, Err(Refusal::KnotsNotRising));
}

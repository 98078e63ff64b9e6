//! The probe behind the text changes nothing: the bare text answers the same.
#![cfg(original)]

use oracle::answers::rng::Rng;
use oracle::{Curve, Refusal, Settings, build, build_with, grow, plain, words};

fn settings(rng: &mut Rng) -> Settings {
    Settings {
        quadraticity: [0.0, 1.0, rng.unit(), rng.unit()][rng.below(4) as usize],
        monotonicity: rng.unit(),
        positivity: rng.chance(2),
    }
}

fn table(rng: &mut Rng) -> (Vec<f64>, Vec<f64>) {
    let mut at = rng.between(-5.0, 5.0);
    let points = 2 + rng.below(9);
    let mut next = || {
        at += rng.between(0.01, 2.0);
        (at, rng.between(-2.0, 20.0))
    };
    (0..points).map(|_| next()).unzip()
}

fn queries(rng: &mut Rng, x: &[f64]) -> Vec<f64> {
    let (first, last) = (x[0], x[x.len() - 1]);
    let mut queries = x.to_vec();
    queries.extend((0..20).map(|_| rng.between(first - 1.0, last + 1.0)));
    queries.push(f64::NAN);
    queries
}

fn told(answer: Result<f64, Refusal>) -> Result<u64, Refusal> {
    answer.map(words::bits)
}

fn agree(rng: &mut Rng, x: &[f64], one: Curve, two: plain::Curve) {
    let allow = rng.chance(2);
    let (one, two) = (one.with_extrapolation(allow), two.with_extrapolation(allow));
    for q in queries(rng, x) {
        assert_eq!(told(one.value(q)), told(two.value(q)));
        assert_eq!(told(one.primitive(q)), told(two.primitive(q)));
    }
}

#[test]
fn builds_agree() {
    let mut rng = Rng::new(11);
    for _ in 0..5_000 {
        let settings = settings(&mut rng);
        let (x, y) = table(&mut rng);
        let one = build(&settings, &x, &y).expect("builds");
        let two = plain::build(&settings, &x, &y).expect("builds");
        agree(&mut rng, &x, one, two);
    }
}

#[test]
fn growth_agrees() {
    let mut rng = Rng::new(12);
    for _ in 0..500 {
        let settings = settings(&mut rng);
        let (x, y) = table(&mut rng);
        let localisation = 1 + rng.below(x.len() as u64 - 1) as usize;
        let (mut one, mut two): (Option<Curve>, _) = (None, None);
        for points in localisation + 1..=x.len() {
            let (x, y, end) = (&x[..points], &y[..points], x.len());
            let seam = one.as_ref().and_then(Curve::seam);
            let grown = grow(&settings, x, y, localisation, one.as_ref(), end).expect("grows");
            assert_eq!(grown.held(), points != end);
            // The seam given by hand makes the same curve.
            let by_hand = build_with(&settings, x, y, points != end, seam).expect("builds");
            for place in 0..grown.sections() {
                assert!(grown.record(place).same(&by_hand.record(place)));
            }
            one = Some(grown);
            two = plain::grow(&settings, x, y, localisation, two.as_ref(), end).ok();
        }
        let (one, two) = (one.expect("grows"), two.expect("grows"));
        assert_eq!(one.sections(), x.len() - 1);
        agree(&mut rng, &x, one, two);
    }
}

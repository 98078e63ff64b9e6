//! Which refusal comes first where a table has one bad knot and one pair that does not rise: at every two places of short tables, and
//! at places throughout long ones. The original says what is due.

use havgrunel::lent::{self, Buffers, Curve, Tail};
use havgrunel::{ConvexMonotone, MOST_POINTS, Refusal, SLOTS};
use oracle::Settings;

const PLAIN: Settings = Settings {
    quadraticity: 0.0,
    monotonicity: 0.0,
    positivity: false,
};
const BAD: [f64; 4] = [f64::NAN, -f64::NAN, f64::INFINITY, f64::NEG_INFINITY];

/// The pair does not rise because its knots are equal, or because the second lies below the first.
const FALLS: [f64; 2] = [0.0, 2.5];

/// Buffers that are long enough for every table here, and what they hold.
struct Lent {
    nodes: Vec<f64>,
    tags: Vec<u16>,
    slots: Vec<f64>,
}

impl Lent {
    fn new(points: usize) -> Lent {
        Lent {
            nodes: vec![7.0; points],
            tags: vec![7; points],
            slots: vec![7.0; SLOTS * points],
        }
    }

    fn build(&mut self, x: &[f64], y: &[f64]) -> u8 {
        let buffers = Buffers {
            nodes: &mut self.nodes,
            tags: &mut self.tags,
            slots: &mut self.slots,
        };
        let method = ConvexMonotone::new(0.0, 0.0, false);
        let built = lent::build(x, y, method, false, None, buffers);
        built.map_or_else(Refusal::number, |_| 0)
    }

    fn value(&self, x: &[f64]) -> u8 {
        let tail = Tail {
            value: 0.0,
            total: 0.0,
            from: 0.0,
        };
        let curve = Curve {
            sections: x.len() - 1,
            held: false,
            extrapolates: true,
            tail,
        };
        let answer = lent::value(x, &curve, &self.tags, &self.slots, 0.0);
        answer.map_or_else(Refusal::number, |_| 0)
    }

    fn unchanged(&self) -> bool {
        let floats = self.nodes.iter().chain(&self.slots);
        floats.into_iter().all(|&number| number == 7.0) && self.tags.iter().all(|&tag| tag == 7)
    }
}

fn original(x: &[f64], y: &[f64]) -> u8 {
    let built = oracle::build(&PLAIN, x, y);
    built.map_or_else(oracle::Refusal::number, |_| 0)
}

/// Every table of so many days with a bad knot at one of the places and a pair that starts at one and does not rise: each is refused
/// with sound averages and with a bad one, by a build and by a query, as the original refuses it, and nothing is written.
fn two_faults(lent: &mut Lent, points: usize, places: &[usize]) {
    let days: Vec<f64> = (0..points as u32).map(f64::from).collect();
    let sound = vec![0.0; points];
    let mut spoiled = sound.clone();
    spoiled[points / 2] = f64::NAN;
    for &bad in places {
        for &pair in places.iter().filter(|&&pair| pair + 1 < points) {
            for (turn, knot) in BAD.into_iter().enumerate() {
                let mut x = days.clone();
                x[pair + 1] = x[pair] - FALLS[turn % 2];
                x[bad] = knot;
                let told = format!("{points} knots, {knot} at {bad}, no rise from {pair}");
                let due = original(&x, &sound);
                assert_eq!(due, 5, "{told}");
                assert_eq!(lent.build(&x, &sound), due, "{told}");
                assert_eq!(lent.value(&x), due, "{told}");
                assert_eq!(original(&x, &spoiled), due, "{told}");
                assert_eq!(lent.build(&x, &spoiled), due, "{told}");
            }
            for fall in FALLS {
                let mut x = days.clone();
                x[pair + 1] = x[pair] - fall;
                let told = format!("{points} knots, no rise from {pair}");
                let (plain, with_average) = (original(&x, &sound), original(&x, &spoiled));
                assert_eq!((plain, with_average), (7, 6), "{told}");
                assert_eq!(lent.build(&x, &sound), plain, "{told}");
                assert_eq!(lent.value(&x), plain, "{told}");
                assert_eq!(lent.build(&x, &spoiled), with_average, "{told}");
            }
        }
    }
    assert!(lent.unchanged(), "{points} knots");
}

/// Each step of these is another way through a loop that goes several knots at a time.
#[test]
fn every_two_places_of_a_short_table() {
    if !oracle::AT_HAND {
        eprintln!("{}", oracle::NOT_AT_HAND);
        return;
    }
    let mut lent = Lent::new(20);
    for points in 2..=20 {
        let places: Vec<usize> = (0..points).collect();
        two_faults(&mut lent, points, &places);
    }
}

#[test]
fn places_throughout_a_long_table() {
    if !oracle::AT_HAND {
        eprintln!("{}", oracle::NOT_AT_HAND);
        return;
    }
    let mut lent = Lent::new(MOST_POINTS + 2);
    for points in [61, 1000, MOST_POINTS, MOST_POINTS + 1, MOST_POINTS + 2] {
        let middle = points / 2;
        let places = [
            0,
            1,
            2,
            middle - 1,
            middle,
            points - 3,
            points - 2,
            points - 1,
        ];
        two_faults(&mut lent, points, &places);
    }
}

//! Strips: each is the difference of two totals over its length, each step rounded once, whether it is asked by itself, among many or in a run. Compared
//! bit for bit, any NaN matching any NaN.

#[allow(dead_code)]
mod asked;
#[allow(dead_code)]
mod columned;
mod drawn;

use asked::{NO_ROOM, OLD, all_or_nothing, place};
use columned::{Built, built, told_bits};
use havgrunel::{ConvexMonotone, Refusal};
use oracle::answers::rng::Rng;

const NAN: f64 = f64::NAN;

/// How often a refusal came back, by its number, and how often none did.
#[derive(Default)]
struct Seen {
    refused: [usize; 32],
    accepted: usize,
}

impl Seen {
    fn count<T, R: Into<Refusal>>(&mut self, told: Result<T, R>) {
        match told {
            Ok(_) => self.accepted += 1,
            Err(refused) => self.refused[usize::from(refused.into().number())] += 1,
        }
    }

    /// All that a strip of a sound curve can be told came at least so often.
    fn all(&self, least: usize) {
        for number in [12, 13, 15, 18, 21] {
            let times = self.refused[number];
            assert!(times >= least, "refusal {number} came {times} times");
        }
        assert!(
            self.accepted >= least,
            "{} strips were accepted",
            self.accepted
        );
    }
}

/// Now and then a record is not legal: only a strip that needs it is refused.
fn spoil(rng: &mut Rng, built: &mut Built) {
    if rng.chance(4) {
        let tags = &mut built.written.tags;
        let spoiled = rng.below(tags.len() as u64) as usize;
        tags[spoiled] = rng.pick(&[0.0, 1.0, 65_535.0]) as u16;
    }
}

#[test]
fn a_strip_is_two_totals_over_its_length() {
    let mut rng = Rng::new(0x7374_7269);
    let mut seen = Seen::default();
    for _ in 0..2_000 {
        let mut built = built(&mut rng);
        spoil(&mut rng, &mut built);
        for _ in 0..40 {
            let a = place(&mut rng, &built.knots);
            let b = match rng.below(20) {
                0 => a,
                _ => place(&mut rng, &built.knots),
            };
            let told = built.strip(a, b);
            assert_eq!(
                told_bits(told),
                told_bits(built.due(a, b)),
                "from {a:?} to {b:?}"
            );
            seen.count(told);
        }
    }
    seen.all(100);
}

#[test]
fn many_and_runs_are_told_what_each_strip_is_told() {
    let mut rng = Rng::new(0x7374_7270);
    let (mut of_many, mut of_runs) = (Seen::default(), Seen::default());
    for _ in 0..6_000 {
        let mut built = built(&mut rng);
        spoil(&mut rng, &mut built);
        let count = rng.pick(&[0.0, 1.0, 2.0, 7.0, 60.0]) as usize;
        let mut edges: Vec<f64> = (0..count).map(|_| place(&mut rng, &built.knots)).collect();
        if !rng.chance(8) {
            edges.sort_by(f64::total_cmp);
            edges.dedup();
        }
        // Mostly strips that rise, in any order, which may overlap.
        let mut pairs: Vec<(f64, f64)> = edges
            .iter()
            .map(|&edge| {
                let other = edges[rng.below(edges.len() as u64) as usize];
                if other < edge || rng.chance(60) {
                    (other, edge)
                } else {
                    (edge, other)
                }
            })
            .collect();
        if !rng.chance(8) {
            pairs.retain(|(a, b)| a != b);
        }
        let (starts, ends): (Vec<f64>, Vec<f64>) = pairs.iter().copied().unzip();
        let due = pairs.iter().map(|&(a, b)| built.strip(a, b));
        let told = all_or_nothing(due, |answers| built.strips(&starts, &ends, answers));
        of_many.count(told);
        let due = edges.windows(2).map(|ends| built.strip(ends[0], ends[1]));
        let told = all_or_nothing(due, |answers| built.strip_run(&edges, answers));
        of_runs.count(told);
    }
    of_many.all(20);
    of_runs.all(20);
}

/// No edge and one edge are no strip, even where that edge could not be asked.
#[test]
fn a_run_of_no_strip() {
    let curve = ConvexMonotone::default().interpolate(&[0.0, 1.0], &[0.0, 1.0]);
    let curve = curve.expect("builds");
    assert_eq!(curve.strip_run(&[], &mut []), Ok(()));
    assert_eq!(curve.strip_run(&[NAN], &mut []), Ok(()));
    assert_eq!(curve.strips(&[], &[], &mut []), Ok(()));
    let two = curve.strip_run(&[0.0, 1.0], &mut []);
    assert_eq!(two, Err(NO_ROOM));
}

#[test]
fn the_figures_of_a_strip() {
    let method = ConvexMonotone::new(0.0, 1.0, false);
    let curve = method.interpolate_with_column(&[0.0, 1.0, 2.0], &[0.0, 1.0, 3.0]);
    let curve = curve.expect("builds");
    assert_eq!(curve.column(), Some(&[0.0, 1.0, 4.0][..]));
    assert_eq!(curve.strip(0.0, 2.0), Ok(2.0));
    assert_eq!(curve.strip_between(0, 2), Ok(2.0));
    assert_eq!(curve.strip_between(1, 2), Ok(3.0));
    let mut answers = [OLD; 3];
    let told = curve.strips(&[1.0, 0.0], &[2.0, 1.0], &mut answers);
    assert_eq!((told, answers), (Ok(()), [3.0, 1.0, OLD]));
    let told = curve.strip_run(&[0.0, 1.0, 2.0], &mut answers);
    assert_eq!((told, answers), (Ok(()), [1.0, 3.0, OLD]));
    // Beyond the last knot the price stays as it is there.
    let far = curve.with_extrapolation(true);
    assert_eq!(far.strip(2.0, 4.0), Ok(3.5));
}

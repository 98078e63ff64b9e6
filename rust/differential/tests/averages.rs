//! What the careful mode is for: at quadraticity 0 with positivity a month of a strip that falls or rises keeps its average, more
//! than half of which the original's rule can cost it. And what the safe mode promises, of strips of every sort at any quadraticity.
//! `--nocapture` prints the figures.

mod strips;

use havgrunel::{ConvexMonotone, Record, Split};
use oracle::answers::rng::Rng;
use strips::Strip;

const STRIPS: usize = 20_000;

/// A change that is below this share of the average is rounding.
const ROUNDING: f64 = 1.0e-9;

/// Months that all fall or all rise, at prices from 0.5 on; some steps are steep.
fn strip(rng: &mut Rng, falls: bool) -> (Vec<f64>, Vec<f64>) {
    let periods = 2 + rng.below(11) as usize;
    let mut day = 0.0;
    let mut price = rng.between(0.5, 2.0);
    let (mut x, mut y) = (vec![day], vec![price]);
    for _ in 0..periods {
        day += rng.pick(&[28.0, 30.0, 31.0]);
        price *= match rng.chance(8) {
            true => rng.between(2.0, 9.0),
            false => rng.between(1.01, 1.6),
        };
        x.push(day);
        y.push(price);
    }
    if falls {
        y.reverse();
    }
    (x, y)
}

/// What each period holds over what it traded at, less 1.
fn changes(method: ConvexMonotone, x: &[f64], y: &[f64]) -> Vec<f64> {
    let curve = method.interpolate(x, y).expect("builds");
    let total = |place: usize, x: f64| {
        // A knot belongs to the section after it, so a section is asked by itself.
        let record = curve.record(place).expect("there");
        record.answers(x).expect("legal").primitive.number
    };
    let of = |place: usize| {
        let (from, to) = (x[place], x[place + 1]);
        let held = total(place, to) - total(place, from);
        held / ((to - from) * y[place + 1]) - 1.0
    };
    (0..curve.sections()).map(of).collect()
}

/// The largest loss and the largest gain of a period, how many are off by more than rounding, and how many there are.
#[derive(Default)]
struct Seen {
    loss: f64,
    gain: f64,
    off: usize,
    periods: usize,
}

impl Seen {
    fn add(&mut self, change: f64) {
        assert!(change.is_finite(), "a total that is no number");
        self.periods += 1;
        self.off += usize::from(change.abs() >= ROUNDING);
        self.loss = self.loss.max(-change);
        self.gain = self.gain.max(change);
    }
}

#[test]
fn a_month_that_falls_or_rises_keeps_its_average() {
    let mut rng = Rng::new(0xa7e);
    let [mut original, mut careful] = [Seen::default(), Seen::default()];
    for number in 0..STRIPS {
        let (x, y) = strip(&mut rng, number % 2 == 0);
        let method = ConvexMonotone::new(0.0, rng.unit(), true);
        for change in changes(method, &x, &y) {
            original.add(change);
        }
        for change in changes(method.with_split(Split::Careful), &x, &y) {
            careful.add(change);
        }
    }
    for (name, seen) in [("original", &original), ("careful", &careful)] {
        println!(
            "{name} rule, {} periods of {STRIPS} strips: {} off; largest loss {:e} and gain {:e} of the average",
            seen.periods, seen.off, seen.loss, seen.gain
        );
    }
    assert!(original.loss > 0.5, "{}", original.loss);
    assert!(original.off > original.periods / 10, "{}", original.off);
    assert!(careful.loss < ROUNDING, "{}", careful.loss);
    assert!(careful.gain < ROUNDING, "{}", careful.gain);
}

/// The safe mode's promise: its bounds as parts of the largest average.
const BELOW: f64 = 1.0e-12;
const LOST: f64 = 1.0e-11;

/// How many strips are drawn where the environment does not say.
const SAFE_STRIPS: usize = 40_000;

/// Half the distance to the next float, which a rounding may cost.
fn half_a_float(x: f64) -> f64 {
    (x.abs().next_up() - x.abs()) / 2.0
}

/// What is seen of safe curves, as parts of the largest average of each.
#[derive(Clone, Copy, Default)]
struct Kept {
    strips: usize,
    prices: usize,
    lowest: f64,
    loss: f64,
}

/// The places at which a section is asked: its knot and just after it, inside, where its formula changes, and just before the next.
fn places(record: &Record, from: f64, to: f64, rng: &mut Rng, into: &mut Vec<f64>) {
    let parts = (1..8).map(|part| from + (to - from) * (f64::from(part) / 8.0));
    into.extend([from, from.next_up(), to.next_down()]);
    into.extend(parts);
    into.push(from + (to - from) * rng.unit());
    let Record { tag, slots } = record;
    for (bit, place) in [(0x1000, 2), (0x1000, 3), (0x0080, 22), (0x0080, 23)] {
        if tag & bit != 0 {
            let change = slots[place];
            into.extend([change.next_down(), change, change.next_up()]);
        }
    }
}

impl Kept {
    /// Measures one strip; a sentence says what is wrong, where something is.
    fn see(&mut self, method: ConvexMonotone, strip: &Strip, rng: &mut Rng) -> Result<(), String> {
        let Strip { x, y } = strip;
        let top = y.iter().skip(1).fold(0.0_f64, |top, &y| top.max(y));
        if top < 1.0e-3 {
            return Ok(());
        }
        let curve = method.interpolate(x, y).map_err(|no| no.to_string())?;
        let mut asked = Vec::new();
        let mut total = 0.0;
        for (place, record) in curve.records().enumerate() {
            let (from, to, average) = (x[place], x[place + 1], y[place + 1]);
            places(&record, from, to, rng, &mut asked);
            let up_to = |x: f64| record.answers(x).expect("legal").primitive.number;
            let after = total + average * (to - from);
            // Both ends of the period add to the running total; a combination adds two of either.
            let both = record.tag & 0xf000 != 0 && record.tag & 0x0f00 != 0;
            let roundings = if both { 8.0 } else { 2.0 };
            let rounding = roundings * half_a_float(f64::max(total, after));
            total = after;
            let dear = curve.nodes()[place].max(curve.nodes()[place + 1]);
            let last = (to - to.next_down()) * 2.0 * dear.max(average);
            for (end, missing) in [(to, 0.0), (to.next_down(), last)] {
                let held = up_to(end) - up_to(from);
                if !held.is_finite() {
                    return Err(format!("period {place} holds {held}"));
                }
                let off = (held - average * (to - from)).abs() - rounding - missing;
                self.loss = self.loss.max(off / (to - from) / top);
            }
        }
        asked.push(x[x.len() - 1]);
        asked.retain(|place| (x[0]..=x[x.len() - 1]).contains(place));
        let mut prices = vec![0.0; asked.len()];
        let answered = curve.values(&asked, &mut prices);
        answered.map_err(|no| no.to_string())?;
        for (&place, &price) in asked.iter().zip(&prices) {
            if !price.is_finite() {
                return Err(format!("the price at {place:?} is {price}"));
            }
            self.lowest = self.lowest.min(price / top);
        }
        self.strips += 1;
        self.prices += prices.len();
        match () {
            () if self.lowest < -BELOW => Err(format!("a price of {:e}", self.lowest)),
            () if self.loss > LOST => Err(format!("a loss of {:e}", self.loss)),
            () => Ok(()),
        }
    }
}

/// `HAVGRUNEL_STRIPS` says how many strips are drawn, for a run by hand that is longer.
#[test]
fn a_safe_strip_neither_falls_below_zero_nor_loses_an_average() {
    let told = std::env::var("HAVGRUNEL_STRIPS").ok();
    let count = told.map_or(SAFE_STRIPS, |told| {
        told.parse().expect("a number of strips")
    });
    let mut rng = Rng::new(0x5afe);
    let shares = [0.0, 0.3, 1.0];
    let mut kept = [Kept::default(); 3];
    for number in 0..count {
        let (sort, strip) = strips::strip(&mut rng);
        let monotonicity = match rng.chance(2) {
            true => rng.pick(&[0.0, 0.7, 0.9, 0.99]),
            false => rng.between(0.0, 0.99),
        };
        for (quadraticity, kept) in shares.into_iter().zip(&mut kept) {
            let method = ConvexMonotone::new(quadraticity, monotonicity, true);
            let seen = kept.see(method.with_split(Split::Safe), &strip, &mut rng);
            let Strip { x, y } = &strip;
            assert_eq!(
                seen,
                Ok(()),
                "strip {number}, {sort}, {method:?}, knots {x:?}, averages {y:?}"
            );
        }
    }
    for (quadraticity, kept) in shares.into_iter().zip(kept) {
        println!(
            "safe rule, quadraticity {quadraticity}: {} strips, {} prices; lowest {:e} and largest loss {:e} of the largest average",
            kept.strips, kept.prices, kept.lowest, kept.loss
        );
        assert!(kept.strips > count / 2);
    }
}

/// The same measures find what the other rules cost, so that they would find it in the safe one, too.
#[test]
fn the_measures_see_what_the_other_rules_cost() {
    for (split, lowest, loss) in [
        (Split::Original, -1.0e-3, 0.1),
        (Split::Careful, -1.0e-3, 0.0),
    ] {
        let mut rng = Rng::new(0x5afe);
        let mut kept = Kept::default();
        for _ in 0..2000 {
            let (_, strip) = strips::strip(&mut rng);
            let method = ConvexMonotone::new(rng.pick(&[0.0, 0.3, 1.0]), 0.7, true);
            // What is wrong is what is looked for.
            let _ = kept.see(method.with_split(split), &strip, &mut rng);
        }
        println!(
            "{split:?} rule: lowest {:e} and largest loss {:e} of the largest average",
            kept.lowest, kept.loss
        );
        assert!(
            kept.lowest < lowest && kept.loss > loss,
            "{split:?}: {:e}, {:e}",
            kept.lowest,
            kept.loss
        );
    }
}

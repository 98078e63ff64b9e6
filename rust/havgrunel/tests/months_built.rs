//! Curves by months: those of a build over the same knots, to the bit, and refused as it is.

mod calendar;
mod drawn;

use calendar::{MONTHS, first_days, knots};
use drawn::table;
use havgrunel::lent::{self, Buffers, Seam};
use havgrunel::{ConvexMonotone, ConvexMonotoneInterpolation, MOST_MONTH_KNOTS, Period, Record};
use havgrunel::{Refusal, SLOTS, Split, ffi, month};
use oracle::answers::rng::Rng;
use oracle::words::bits;

const PERIODS: [Period; 3] = [Period::Month, Period::Quarter, Period::Year];
const SPLITS: [Split; 3] = [Split::Original, Split::Careful, Split::Safe];

const OLD: f64 = -123.25;
const OLD_TAG: u16 = 0xabcd;
const OLD_COUNT: usize = 77;

/// Buffers for so many points, with entries beyond what they need or short of it.
#[derive(Clone, Debug, PartialEq)]
struct Held {
    knots: Vec<f64>,
    nodes: Vec<f64>,
    tags: Vec<u16>,
    slots: Vec<f64>,
    sections: Vec<usize>,
    tail: Vec<f64>,
}

impl Held {
    fn new([knots, nodes, tags, slots, sections, tail]: [usize; 6]) -> Held {
        Held {
            knots: vec![OLD; knots],
            nodes: vec![OLD; nodes],
            tags: vec![OLD_TAG; tags],
            slots: vec![OLD; slots],
            sections: vec![OLD_COUNT; sections],
            tail: vec![OLD; tail],
        }
    }

    fn with_room(points: usize) -> Held {
        Held::new(needs(points).map(|need| need + 1))
    }

    fn parts(&mut self) -> (&mut [f64], Buffers<'_>, &mut [usize], &mut [f64]) {
        let buffers = Buffers {
            nodes: &mut self.nodes,
            tags: &mut self.tags,
            slots: &mut self.slots,
        };
        (&mut self.knots, buffers, &mut self.sections, &mut self.tail)
    }

    /// Every number by its bits.
    fn all(&self) -> (Vec<u64>, &[u16], &[usize]) {
        let floats = [&self.knots, &self.nodes, &self.slots, &self.tail];
        let floats = floats.into_iter().flatten().copied().map(bits).collect();
        (floats, &self.tags, &self.sections)
    }
}

/// What so many points take of each buffer.
fn needs(points: usize) -> [usize; 6] {
    [points, points, points - 1, SLOTS * (points - 1), 1, 3]
}

/// What is asked of a build beside its periods.
#[derive(Clone, Copy)]
struct Asked {
    method: ConvexMonotone,
    hold: bool,
    seam: Option<Seam>,
}

fn by_months(first: i64, last: i64, months: u8, y: &[f64], asked: Asked, held: &mut Held) -> u8 {
    let (knots, buffers, sections, tail) = held.parts();
    let Asked { method, hold, seam } = asked;
    ffi::build_months(
        first, last, months, y, method, hold, seam, knots, buffers, sections, tail,
    )
}

/// A build over these knots, and the knots where it is accepted.
fn by_knots(x: &[f64], y: &[f64], asked: Asked, held: &mut Held) -> u8 {
    let (_, buffers, sections, tail) = held.parts();
    let Asked { method, hold, seam } = asked;
    let told = ffi::build(x, y, method, hold, seam, buffers, sections, tail);
    if told == 0 {
        held.knots[..x.len()].copy_from_slice(x);
    }
    told
}

/// All splits, held or not, with seams or without: what both ways leave is the same, refused or not.
fn same_both_ways(
    first: i64,
    last: i64,
    period: Period,
    x: &[f64],
    y: &[f64],
    plain: Asked,
) -> u32 {
    let months = period.months();
    let node = y[y.len() / 2];
    let seams = [0, 1, x.len() / 2, x.len() - 1].map(|count| Some(Seam { count, node }));
    let mut accepted = 0;
    for split in SPLITS {
        for hold in [false, true] {
            for seam in seams.into_iter().chain([None]) {
                let asked = Asked {
                    method: plain.method.with_split(split),
                    hold,
                    seam,
                };
                let (mut one, mut two) = (Held::with_room(x.len()), Held::with_room(x.len()));
                let told = by_months(first, last, months, y, asked, &mut one);
                assert_eq!(told, by_knots(x, y, asked, &mut two), "{first} to {last}");
                assert_eq!(one.all(), two.all(), "{first} to {last}");
                if told == 0 {
                    assert_eq!(one.sections, [x.len() - 1, OLD_COUNT]);
                    accepted += 1;
                } else {
                    assert_eq!(one, Held::with_room(x.len()));
                }
            }
        }
    }
    accepted
}

#[test]
fn a_build_by_months_is_a_build_over_its_knots() {
    let days = first_days();
    let rng = &mut Rng::new(2);
    let mut accepted = 0;
    for turn in 0..600_u64 {
        let period = PERIODS[turn as usize % 3];
        let months = period.months();
        let all = (MONTHS / i64::from(months)) as u64;
        let from = rng.below(all);
        let most = if turn % 50 == 0 { all } else { 40 };
        let periods = 1 + rng.below((all - from).min(most));
        let first = i64::from(months) * from as i64;
        let last = i64::from(months) * (from + periods) as i64 - 1;
        let x = knots(&days, first, last, months);
        let (_, y) = table(rng, x.len() as u64, 0);
        let method = ConvexMonotone::new(rng.unit(), rng.unit(), !rng.chance(3));
        let plain = Asked {
            method,
            hold: false,
            seam: None,
        };
        accepted += same_both_ways(first, last, period, &x, &y, plain);
    }
    assert!(accepted > 8000, "{accepted}");
}

/// The whole calendar, and its last month.
#[test]
fn the_ends_of_the_calendar() {
    let days = first_days();
    let plain = Asked {
        method: ConvexMonotone::gas(),
        hold: false,
        seam: None,
    };
    for (first, last, period) in [
        (0, MONTHS - 1, Period::Month),
        (0, MONTHS - 1, Period::Quarter),
        (0, MONTHS - 1, Period::Year),
        (MONTHS - 1, MONTHS - 1, Period::Month),
        (MONTHS - 3, MONTHS - 1, Period::Quarter),
        (MONTHS - 12, MONTHS - 1, Period::Year),
    ] {
        let x = knots(&days, first, last, period.months());
        let y: Vec<f64> = (0..x.len()).map(|k| 20.0 + (k * 7 % 11) as f64).collect();
        assert!(same_both_ways(first, last, period, &x, &y, plain) > 0);
    }
}

/// All that a curve is, by bits.
fn all(curve: &ConvexMonotoneInterpolation) -> (Vec<u64>, Vec<(u16, [u64; SLOTS])>) {
    let tail = curve.tail();
    let floats = curve.knots().iter().chain(curve.nodes()).copied();
    let floats = floats.chain([tail.value, tail.total, tail.from]);
    let record = |record: Record| (record.tag, record.slots.map(bits));
    (
        floats.map(bits).collect(),
        curve.records().map(record).collect(),
    )
}

#[test]
fn the_owned_and_the_lent_curve() {
    let days = first_days();
    let y: Vec<f64> = (0..13).map(|k| 20.0 + f64::from(k * 7 % 11)).collect();
    for (first, period) in [
        (month(2026, 10), Period::Month),
        (month(2026, 10), Period::Quarter),
        (month(2027, 1), Period::Year),
    ] {
        let last = first + 12 * i64::from(period.months()) - 1;
        let x = knots(&days, first, last, period.months());
        for split in SPLITS {
            let method = ConvexMonotone::gas().with_split(split);
            let owned = method
                .interpolate_months(first, last, period, &y)
                .expect("whole");
            let due = method.interpolate(&x, &y).expect("builds");
            assert_eq!(all(&owned), all(&due));
            assert_eq!((owned.sections(), owned.column()), (12, None));
            assert_eq!(owned.knots(), x);
            assert_eq!(owned.value(x[5] + 0.5), due.value(x[5] + 0.5));
            assert_eq!(owned.value(x[0] - 1.0), Err(Refusal::QueryOutside));

            let mut held = Held::with_room(13);
            let (knots, buffers, ..) = held.parts();
            let curve =
                lent::build_months(first, last, period, &y, method, false, None, knots, buffers);
            let curve = curve.expect("whole");
            assert_eq!(curve.tail, due.tail());
            assert_eq!(
                (curve.sections, curve.held, curve.extrapolates),
                (12, false, false)
            );
            assert_eq!(held.knots, [&x[..], &[OLD]].concat());
            assert_eq!(held.nodes, [due.nodes(), &[OLD]].concat());
        }
    }
}

/// Each fault alone in front of all later ones: 19, 1, 2, 3, 6, 8, 29, 11. The crate has no split that is unknown.
#[test]
fn refusals_come_in_their_order() {
    let seam = Some(Seam {
        count: 3,
        node: 0.0,
    });
    let safe = |q: f64, m: f64| ConvexMonotone::new(q, m, true).with_split(Split::Safe);
    let missing = [f64::NAN, 1.0, -1.0, 2.0];
    let below = [f64::MAX, 1.0, -1.0, 2.0];
    for (due, last, y, method, seam) in [
        (19, 1200, &missing[..3], safe(2.0, 2.0), seam),
        (1, 2, &missing[..3], safe(2.0, 2.0), seam),
        (2, 2, &missing, safe(2.0, 2.0), seam),
        (3, 2, &missing, safe(2.0, 1.0), seam),
        (6, 2, &missing, safe(1.0, 1.0), seam),
        (8, 2, &below, safe(1.0, 1.0), seam),
        (29, 2, &below, safe(1.0, 1.0), None),
        (11, 2, &[0.0, 1.0, 1.0, 2.0], safe(1.0, 1.0), None),
    ] {
        let hold = false;
        let asked = Asked { method, hold, seam };
        let mut held = Held::new([0; 6]);
        assert_eq!(by_months(0, last, 1, y, asked, &mut held), due);
        // With room nothing but 11 is told otherwise, and nothing is written.
        let mut held = Held::with_room(4);
        let told = by_months(0, last, 1, y, asked, &mut held);
        assert_eq!(told, if due == 11 { 0 } else { due });
        assert_eq!(held == Held::with_room(4), due != 11);
    }
    for months in [0, 2, 4, 6, 13, 255] {
        let asked = Asked {
            method: safe(2.0, 2.0),
            hold: true,
            seam,
        };
        let mut held = Held::with_room(MOST_MONTH_KNOTS);
        assert_eq!(by_months(0, 11, months, &missing, asked, &mut held), 19);
        assert_eq!(held, Held::with_room(MOST_MONTH_KNOTS));
    }
}

#[test]
fn each_buffer_one_entry_short() {
    let y = [0.0, 1.0, 3.0, 2.0];
    let asked = Asked {
        method: ConvexMonotone::default(),
        hold: false,
        seam: None,
    };
    for short in 0..6 {
        let mut lent = needs(4);
        lent[short] -= 1;
        let mut held = Held::new(lent);
        assert_eq!(by_months(0, 2, 1, &y, asked, &mut held), 11);
        assert_eq!(held, Held::new(lent));
    }
    let mut held = Held::new(needs(4));
    assert_eq!(by_months(0, 2, 1, &y, asked, &mut held), 0);
    assert_eq!(held.knots, [0.0, 31.0, 60.0, 91.0]);
}

#[test]
fn months_that_are_not_whole_are_refused_before_the_averages() {
    let method = ConvexMonotone::new(f64::NAN, f64::NAN, true);
    for (first, last, period) in [
        (i64::MIN, i64::MAX, Period::Month),
        (i64::MAX, i64::MIN, Period::Quarter),
        (i64::MIN, i64::MIN, Period::Year),
        (i64::MAX, i64::MAX, Period::Month),
        (-1, 0, Period::Month),
        (1199, 1200, Period::Month),
        (5, 4, Period::Month),
        (1, 3, Period::Quarter),
        (0, 3, Period::Quarter),
        (3, 14, Period::Year),
        (0, 12, Period::Year),
    ] {
        let refused = method.interpolate_months(first, last, period, &[]).err();
        assert_eq!(
            refused,
            Some(Refusal::MonthsNotPeriods),
            "{first} to {last}"
        );
    }
    let refused = method.interpolate_months(0, 2, Period::Month, &[]).err();
    assert_eq!(refused, Some(Refusal::LengthsDiffer));
}

//! Tables of every temper, sound and spoiled.

use havgrunel::{MOST_POINTS, Split};
use oracle::Seam;
use oracle::answers::rng::Rng;

use super::{ENDS, FINITE, NOT_SHARES};
use super::{finite, index, pattern, points, queries, room, settings, shorten};
use crate::case::{Case, Queries, Room, Table};

pub fn knots(rng: &mut Rng, points: usize) -> Vec<f64> {
    let mut at = match rng.below(4) {
        0 => 0.0,
        1 => rng.whole(-40, 40),
        2 => rng.whole(-40, 40) / 4.0,
        _ => rng.between(-50.0, 50.0),
    };
    let style = rng.below(16);
    let mut knots = Vec::with_capacity(points);
    match style {
        // Months by their days, and as parts of a year.
        0..=3 => {
            let year = if style < 2 { 1.0 } else { 365.0 };
            let mut day = at;
            for _ in 0..points {
                knots.push(day / year);
                day += rng.pick(&[28.0, 29.0, 30.0, 30.0, 31.0, 31.0]);
            }
        }
        // Steps of few bits, which meet the tests exactly.
        4..=7 => {
            for _ in 0..points {
                knots.push(at);
                at += rng.pick(&[0.25, 0.5, 1.0, 1.0, 2.0]);
            }
        }
        8..=10 => {
            for _ in 0..points {
                knots.push(at);
                at += rng.between(0.001, 2.0);
            }
        }
        // Neighbours among the floats.
        11 => {
            for _ in 0..points {
                knots.push(at);
                for _ in 0..=rng.below(3) {
                    at = at.next_up();
                }
            }
        }
        // Subnormal steps across zero.
        12 => {
            let mut place = -(index(rng, points + 1) as i64);
            for _ in 0..points {
                let size = f64::from_bits(place.unsigned_abs());
                knots.push(if place < 0 { -size } else { size });
                place += 1 + rng.below(9) as i64;
            }
        }
        // Any finite numbers, in order.
        13 => {
            knots.extend((0..points).map(|_| finite(rng)));
            knots.sort_by(f64::total_cmp);
            // The two zeros are one place.
            for place in 1..points {
                if knots[place] <= knots[place - 1] {
                    knots[place] = knots[place - 1].next_up();
                }
            }
        }
        // Across all of the range: sums of lengths overflow.
        14 => {
            let step = f64::MAX / points.max(1) as f64 * 1.99;
            for place in 0..points {
                knots.push(f64::MIN + place as f64 * step);
            }
        }
        // Ordinary ones between two far ends.
        _ => {
            for _ in 0..points {
                knots.push(at);
                at += rng.between(0.01, 2.0);
            }
            if let [first, .., last] = &mut knots[..] {
                *first = rng.pick(&[f64::MIN, -1.0e300, -1.0e17]);
                *last = rng.pick(&[f64::MAX, 1.0e300, 1.0e17]);
            }
        }
    }
    // A zero of either sign is the same knot.
    if rng.chance(8) {
        for knot in &mut knots {
            if *knot == 0.0 {
                *knot = -*knot;
            }
        }
    }
    knots
}

pub fn averages(rng: &mut Rng, points: usize) -> Vec<f64> {
    let style = rng.below(20);
    let level = match rng.below(3) {
        0 => rng.whole(-8, 40) / 4.0,
        1 => rng.between(10.0, 80.0),
        _ => rng.pick(&[0.0, 1.0, 0.01, 1.0e-10, -3.0]),
    };
    let swing = rng.between(0.0, 1.2);
    let step = rng.whole(-8, 8) / 8.0;
    let mut average = |place: usize| match style {
        // Winters and summers, with days that don't follow.
        0..=3 => {
            let month = place as f64 + rng.between(-0.3, 0.3);
            30.0 + 30.0 * swing * (month * std::f64::consts::TAU / 12.0).cos()
        }
        4 => rng.between(0.001, 0.06),
        5 | 6 => rng.whole(0, 6) / 2.0,
        // Low between high ones.
        7 | 8 if rng.chance(2) => rng.between(0.0, 2.0),
        7 | 8 => rng.between(20.0, 60.0),
        9 => rng.whole(-40, 40) / 4.0,
        10 => rng.between(-20.0, 60.0),
        11 => level,
        12 => level + step * place as f64,
        // So near to each other that the smallest differences decide.
        13 => level + rng.whole(-12, 12) * 2.5e-15,
        14 => rng.pick(&[0.0, -0.0, 0.0, 2.0, level]),
        15 if rng.chance(3) => rng.pick(&ENDS[..FINITE]),
        15 => rng.between(-10.0, 60.0),
        // Sums that overflow, and sizes at both ends.
        16 => rng.pick(&[1.7e308, -1.7e308, f64::MAX, 1.0e308, 5.0e307]),
        17 => f64::from_bits(rng.word() >> (12 + rng.below(52))),
        18 => finite(rng),
        _ => rng.between(0.0, 1.0) * rng.pick(&[1.0e-300, 1.0e-150, 1.0, 1.0e150, 1.0e300]),
    };
    (0..points).map(&mut average).collect()
}

/// Spoils one thing about a table, or nothing.
pub fn spoil(rng: &mut Rng, table: &mut Table, room: &mut Room) {
    let (knots, averages) = (table.x.len(), table.y.len());
    let wrong = rng.pick(&[f64::NAN, -f64::NAN, f64::INFINITY, f64::NEG_INFINITY]);
    match rng.below(16) {
        0 => table.settings.monotonicity = rng.pick(&NOT_SHARES),
        1 => table.settings.quadraticity = rng.pick(&NOT_SHARES),
        2 => table.x.truncate(index(rng, knots + 1)),
        3 => table.y.truncate(index(rng, averages + 1)),
        4 => table.y.push(wrong),
        5 => table.x.push(1.0),
        6 | 7 if knots > 0 => table.x[index(rng, knots)] = wrong,
        8 | 9 if averages > 0 => table.y[index(rng, averages)] = wrong,
        10 if knots > 1 => table.x.swap(index(rng, knots), index(rng, knots)),
        11 if knots > 1 => {
            let place = index(rng, knots - 1);
            table.x[place + 1] = table.x[place];
        }
        12 if knots > 1 => {
            let place = index(rng, knots - 1);
            table.x[place + 1] = -table.x[place];
        }
        13 => {
            table.seam = Some(Seam {
                count: rng.pick(&[
                    knots.saturating_sub(1),
                    knots,
                    knots + 1,
                    MOST_POINTS,
                    usize::MAX / 2,
                    usize::MAX - 1,
                    usize::MAX,
                    usize::MAX,
                ]),
                f_next: rng.pick(&ENDS),
            });
        }
        14 => shorten(rng, room),
        _ => {
            let few = index(rng, 3);
            table.x.truncate(few);
            table.y.truncate(few);
        }
    }
}

pub fn table(rng: &mut Rng, points: usize) -> Table {
    let x = knots(rng, points);
    let y = averages(rng, points);
    let seam = (points > 1 && rng.chance(4)).then(|| Seam {
        count: index(rng, points - 1),
        f_next: match rng.below(8) {
            0 => pattern(rng),
            1 => rng.pick(&ENDS),
            2..=4 => rng.between(-5.0, 60.0),
            _ => rng.pick(&y),
        },
    });
    Table {
        settings: settings(rng),
        split: Split::Original,
        hold: rng.chance(4),
        seam,
        x,
        y,
    }
}

pub fn build(rng: &mut Rng) -> Case {
    let points = points(rng);
    let mut table = table(rng, points);
    let mut room = room(rng);
    if rng.chance(8) {
        for _ in 0..1 + rng.below(2) {
            spoil(rng, &mut table, &mut room);
        }
    }
    let queries = queries(rng, &table.x);
    Case::Build(table, room, queries)
}

/// A table with one bad knot and one pair that does not rise, at any two places, and sometimes a bad average: which of the three is
/// told first. In one case of eight each fault is left out.
pub fn faulty(rng: &mut Rng) -> Case {
    let points = match rng.below(16) {
        0 => MOST_POINTS - 1 + index(rng, 4),
        1 => 301 + index(rng, MOST_POINTS - 301),
        2 | 3 => 41 + index(rng, 260),
        _ => 2 + index(rng, 39),
    };
    let mut table = table(rng, points);
    table.seam = None;
    let wrong = [f64::NAN, -f64::NAN, f64::INFINITY, f64::NEG_INFINITY];
    if !rng.chance(8) {
        let place = index(rng, points - 1);
        let knot = table.x[place];
        table.x[place + 1] = match rng.below(4) {
            0 => knot,
            1 => knot.next_down(),
            2 => -f64::MAX,
            _ => {
                table.x[place] = table.x[place + 1];
                knot
            }
        };
    }
    if !rng.chance(8) {
        table.x[index(rng, points)] = rng.pick(&wrong);
    }
    if rng.chance(4) {
        table.y[index(rng, points)] = rng.pick(&wrong);
    }
    Case::Build(table, Room::default(), Queries::default())
}

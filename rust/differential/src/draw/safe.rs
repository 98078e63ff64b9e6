//! What the safe mode is for: strips with months at zero, at next to nothing beside their neighbours or below zero, with end nodes that
//! are clamped and sizes at both ends of the range, and single sections whose ratio lies at an edge of the rule.

use oracle::answers::rng::Rng;
use oracle::{Convex, Quadratic, Recipe, Seam, Settings};

use super::careful::{laid, months, prices};
use super::section::single;
use super::tables::knots;
use super::{ENDS, LEAST, SHARES, index, number, pattern};
use crate::case::Case;
use crate::parabola::Period;
use crate::safe::{NARROW, RULE, touching};
use havgrunel::Split;

/// A step of growth in the safe mode, or one of few in another.
pub fn step(rng: &mut Rng) -> Split {
    match rng.below(12) {
        0 => Split::Original,
        1 => Split::Careful,
        _ => Split::Safe,
    }
}

/// The case with no average below 0 in most cases, so that few are refused for one.
pub fn raised(rng: &mut Rng, mut case: Case) -> Case {
    let averages = match &mut case {
        Case::Build(table, ..) => &mut table.y,
        Case::Growth { y, .. } => y,
        Case::Reading(reading) => &mut reading.table.y,
        Case::Sheets(sheets) => &mut sheets.table.y,
        Case::Months(months) => &mut months.table.y,
        Case::Section(_) | Case::Record(..) => return case,
    };
    if !rng.chance(8) {
        for average in averages {
            if *average < 0.0 {
                *average = -*average;
            }
        }
    }
    case
}

/// A number of this size, by powers of two.
fn sized(rng: &mut Rng, least: i32, most: i32) -> f64 {
    let power = least + index(rng, (most - least) as usize + 1) as i32;
    rng.between(1.0, 2.0) * 2.0_f64.powi(power)
}

/// Some steps between floats up or down.
fn beside(rng: &mut Rng, x: f64) -> f64 {
    let far = rng.below(4);
    let up = rng.chance(2);
    (0..far).fold(x, |x, _| if up { x.next_up() } else { x.next_down() })
}

/// The nodes at both ends of a period that is neither the first nor the last.
fn nodes(x: &[f64], y: &[f64], period: usize) -> (f64, f64) {
    let node = |i: usize| {
        let (before, after) = (x[i] - x[i - 1], x[i + 1] - x[i]);
        let length = before + after;
        after / length * y[i] + before / length * y[i + 1]
    };
    (node(period - 1), node(period))
}

/// An inner period of a strip, if there is one.
fn inner(rng: &mut Rng, points: usize) -> Option<usize> {
    (points > 3).then(|| 2 + index(rng, points - 3))
}

/// A period whose average is 1e-12 of the one at which its parabola touches zero, or beside that.
fn narrow(rng: &mut Rng, x: &[f64], y: &mut [f64]) {
    if let Some(period) = inner(rng, y.len()) {
        y[period] = 0.0;
        // Both nodes hold a little of the average themselves, which the first turn has not.
        for _ in 0..3 {
            let (f_prev, f_next) = nodes(x, y, period);
            y[period] = at_ratio(touching(f_prev, f_next), NARROW);
        }
        y[period] = beside(rng, y[period]);
    }
}

/// A period whose average is the one at which its parabola touches zero, or beside that.
fn touched(rng: &mut Rng, x: &[f64], y: &mut [f64]) {
    let Some(period) = inner(rng, y.len()) else {
        return;
    };
    let (mut low, mut high) = (0.0, y[period - 1].max(y[period + 1]));
    for _ in 0..64 {
        let middle = low + (high - low) / 2.0;
        y[period] = middle;
        let (f_prev, f_next) = nodes(x, y, period);
        if middle < touching(f_prev, f_next) {
            low = middle;
        } else {
            high = middle;
        }
    }
    // Where the ratio is 1 and rounding leaves the parabola two zeros, if it does; or beside.
    let exact = (0..8).scan(low, |near, _| {
        *near = near.next_up();
        Some(near.next_down())
    });
    let exact = exact.filter(|_| rng.chance(2)).find(|&average| {
        y[period] = average;
        let (f_prev, f_next) = nodes(x, y, period);
        let ratio = RULE.ratio(&Period {
            x_prev: x[period - 1],
            x_next: x[period],
            f_prev,
            f_next,
            average,
            total: 0.0,
        });
        ratio == Some(1.0)
    });
    y[period] = exact.unwrap_or_else(|| beside(rng, low).max(0.0));
}

fn averages(rng: &mut Rng, x: &[f64]) -> Vec<f64> {
    let points = x.len();
    let mut y = prices(rng, points);
    match rng.below(16) {
        0 | 1 => {
            for average in &mut y {
                if rng.chance(3) {
                    *average = rng.pick(&[0.0, -0.0]);
                }
            }
        }
        // The end node falls below zero, and is put at zero.
        2 | 3 => {
            y[1] = y[2] * sized(rng, -12, -1);
            y[points - 1] = y[points - 2] * sized(rng, -12, -1);
        }
        // Next to nothing, or lost beside the neighbours.
        4 | 5 => {
            for average in &mut y {
                if rng.chance(2) {
                    *average *= sized(rng, -67, -33);
                }
            }
        }
        6 | 7 => narrow(rng, x, &mut y),
        8 | 9 => touched(rng, x, &mut y),
        10 => {
            let below = [-LEAST, -1.0, -1.0e-300, -0.25, -1.0e300];
            y[index(rng, points)] = rng.pick(&below);
        }
        // The first is not read.
        11 => y[0] = -sized(rng, -1000, 1000),
        // Products that overflow, and some that vanish.
        12 => y = (0..points).map(|_| sized(rng, 506, 520)).collect(),
        13 => y = (0..points).map(|_| sized(rng, -1000, 1000)).collect(),
        14 => {
            for average in &mut y {
                *average = f64::from_bits(rng.word() >> (12 + rng.below(52)));
            }
        }
        // The smallest differences decide whether a period is a straight line.
        _ => {
            let level = rng.pick(&[0.0, 1.0e-15, 1.0, 1.0e-3]);
            for average in &mut y {
                *average = level + rng.whole(0, 12) * 2.5e-15;
            }
        }
    }
    y
}

/// A strip with positivity in most cases: whole, in sheets, or growing.
pub fn strip(rng: &mut Rng) -> Case {
    let points = 3 + index(rng, 18);
    let x = match rng.chance(6) {
        true => knots(rng, points),
        false => months(rng, points),
    };
    let y = averages(rng, &x);
    let settings = Settings {
        quadraticity: rng.pick(&[0.0, 0.0, 0.3, 0.3, 1.0, 1.0, 0.75]),
        monotonicity: rng.pick(&SHARES),
        positivity: !rng.chance(16),
    };
    let mut case = laid(rng, x, y, settings, Split::Safe);
    if let Case::Build(table, ..) = &mut case
        && table.x.len() > 2
        && rng.chance(4)
    {
        table.seam = Some(Seam {
            count: index(rng, table.x.len() - 1),
            f_next: match rng.below(4) {
                0 => f64::NAN,
                1 => rng.pick(&[0.0, -0.0, -1.0, f64::INFINITY, 1.0e160]),
                2 => pattern(rng),
                _ => rng.between(0.0, 60.0),
            },
        });
    }
    case
}

/// The number whose quotient by this one is a ratio, where rounding has one.
fn at_ratio(root: f64, ratio: f64) -> f64 {
    let near = root * ratio;
    let tries = [near, near.next_up(), near.next_down()];
    let exact = tries.into_iter().find(|average| average / root == ratio);
    exact.unwrap_or(near)
}

/// The ends and the average of a parabola whose ratio is drawn to lie at an edge.
fn parabola(rng: &mut Rng) -> [f64; 3] {
    let mut price = || rng.between(0.01, 60.0);
    let (mut f_prev, mut f_next, other) = (price(), price(), price());
    match rng.below(6) {
        0 => f_prev = 0.0,
        1 => f_next = rng.pick(&[0.0, -0.0]),
        _ => {}
    }
    let root = touching(f_prev, f_next);
    let average = match rng.below(20) {
        0 | 1 => at_ratio(root, NARROW),
        2 => at_ratio(root, NARROW).next_up(),
        3 => at_ratio(root, NARROW).next_down(),
        4 => root * sized(rng, -67, -33),
        5 => root,
        6 => beside(rng, root),
        // Beside an end of zero the discriminant is a square.
        7 | 8 => {
            f_prev = 0.0;
            let root = touching(f_prev, f_next);
            rng.pick(&[root, root.next_up(), root.next_up().next_up()])
        }
        9 => rng.pick(&[0.0, -0.0]),
        10 => -other,
        // Nothing to divide by.
        11 | 12 => {
            let ends = [(0.0, 0.0), (-0.0, -0.0), (0.0, LEAST), (LEAST, 0.0)];
            (f_prev, f_next) = rng.pick(&ends);
            rng.pick(&[other, other, other, LEAST, 0.0])
        }
        // Squares that overflow, with the product of the ends or without.
        13 => {
            (f_prev, f_next) = (sized(rng, 506, 520), sized(rng, 506, 520));
            rng.pick(&[other, f_prev, f_prev / 6.0, f_prev * 2.0])
        }
        14..=16 => {
            let huge = [f64::INFINITY, f64::INFINITY, f64::NAN, 1.0e300, f64::MAX];
            f_prev = rng.pick(&huge);
            other
        }
        // Products that vanish.
        17 => {
            (f_prev, f_next) = (sized(rng, -1000, -500), sized(rng, -1000, -500));
            rng.pick(&[f_prev / 8.0, f_next, f_prev * 1.0e-13, other])
        }
        18 => {
            let both = rng.chance(2);
            (f_prev, f_next) = (if both { -f_prev } else { f_prev }, -f_next);
            other
        }
        _ => root * rng.between(0.0, 4.0),
    };
    [f_prev, f_next, average]
}

/// The fourth kind with a ratio at an edge. Over a length of 1e12 the ratio 1e-12 is met exactly.
fn fourth(rng: &mut Rng) -> [f64; 7] {
    let mut x_prev = rng.whole(-8, 8) / 2.0;
    let mut x_next = x_prev + rng.pick(&[0.25, 1.0, 3.0, 30.0]);
    let (f_prev, f_next) = (rng.between(0.0, 60.0), rng.between(0.01, 60.0));
    let eta = rng.unit();
    let root = (eta * f_prev + (1.0 - eta) * f_next) / 3.0;
    let average = match rng.below(9) {
        0..=3 => {
            (x_prev, x_next) = (0.0, 1.0e12);
            root * NARROW * (1.0 + rng.whole(-20, 20) * 1.0e-5)
        }
        4 => root * NARROW * rng.between(0.9, 1.1),
        5 => root * sized(rng, -67, -33),
        6 => rng.pick(&[0.0, -0.0, -1.0]),
        7 => {
            x_next = x_prev;
            root / 2.0
        }
        _ => root * rng.between(0.0, 2.0),
    };
    let (g_prev, g_next) = (f_prev - average, f_next - average);
    [
        x_prev,
        x_next,
        g_prev,
        g_next,
        average,
        eta,
        rng.whole(-8, 8),
    ]
}

/// A parabola, a fourth kind, or both.
pub fn section(rng: &mut Rng) -> Case {
    let mut convex = fourth(rng);
    let [f_prev, f_next, average] = parabola(rng);
    let [x_prev, x_next, .., total] = convex;
    let mut quadratic = [x_prev, x_next, f_prev, f_next, average, total];
    if rng.chance(12) {
        convex[index(rng, 7)] = number(rng);
        quadratic[index(rng, 6)] = rng.pick(&ENDS);
    }
    let (quadratic, convex) = (Quadratic::Min(quadratic), Convex::FourMin(convex));
    let recipe = match rng.below(8) {
        0..=4 => Recipe::Quadratic(quadratic),
        5 | 6 => Recipe::Convex(convex),
        _ => Recipe::Combination(rng.unit(), quadratic, convex),
    };
    single(rng, recipe, x_prev, x_next)
}

//! What the careful mode is for: strips of months that the original splits although they stay above zero, and parabolas whose ratio
//! lies at an edge of the rule.

use havgrunel::Split;
use oracle::answers::rng::Rng;
use oracle::{Convex, Quadratic, Recipe, Settings};

use super::growing::grown;
use super::safe;
use super::section::single;
use super::sheets::cut;
use super::tables::spoil;
use super::{LEAST, SHARES, index, queries, room};
use crate::careful::touching;
use crate::case::{Case, Table};

/// The case in the careful or the safe mode. Of a table that grows, some steps are in another.
pub fn set(rng: &mut Rng, mut case: Case, split: Split) -> Case {
    match &mut case {
        Case::Build(table, ..) => table.split = split,
        Case::Growth { steps, .. } => {
            for step in steps {
                step.split = match split {
                    Split::Safe => safe::step(rng),
                    _ if rng.chance(8) => Split::Original,
                    _ => split,
                };
            }
        }
        Case::Reading(reading) => reading.table.split = split,
        Case::Sheets(sheets) => sheets.table.split = split,
        Case::Months(months) => months.table.split = split,
        Case::Section(single) => single.split = split,
        // A record says by itself whether it is split.
        Case::Record(..) => {}
    }
    case
}

/// Months that fall or rise all along, that turn, and cheap ones between dear ones, which are split for good.
pub fn prices(rng: &mut Rng, points: usize) -> Vec<f64> {
    let style = rng.below(6);
    let level = rng.between(5.0, 60.0);
    let step = rng.between(-1.0, 1.0) * level / points as f64;
    let mut price = level;
    let mut next = |place: usize| {
        price = match style {
            0 => price * rng.between(0.4, 0.98),
            1 => price * rng.between(1.02, 2.5),
            2 => level + step * place as f64,
            3 => level + level * 0.9 * (place as f64 * std::f64::consts::TAU / 12.0).cos(),
            4 if place.is_multiple_of(2) => rng.between(0.0, level / 8.0),
            4 => rng.between(level / 2.0, level),
            _ => rng.whole(1, 12) / 2.0,
        };
        price
    };
    (0..points).map(&mut next).collect()
}

/// The knots of a strip of months.
pub fn months(rng: &mut Rng, points: usize) -> Vec<f64> {
    let year = rng.pick(&[1.0, 30.0, 365.0]);
    let mut day = rng.whole(-40, 40);
    let mut x = Vec::with_capacity(points);
    for _ in 0..points {
        x.push(day / year);
        day += rng.pick(&[28.0, 30.0, 30.0, 30.0, 31.0, 31.0]);
    }
    x
}

/// A strip of months with positivity, at quadraticity 0 in most cases.
pub fn strip(rng: &mut Rng) -> Case {
    let points = 3 + index(rng, 24);
    let x = months(rng, points);
    let y = prices(rng, points);
    let settings = Settings {
        quadraticity: rng.pick(&[0.0, 0.0, 0.0, 0.0, 0.3, 1.0, -0.0]),
        monotonicity: rng.pick(&SHARES),
        positivity: !rng.chance(16),
    };
    laid(rng, x, y, settings, Split::Careful)
}

/// A strip in a mode: whole, in sheets, or growing.
pub fn laid(rng: &mut Rng, x: Vec<f64>, y: Vec<f64>, settings: Settings, split: Split) -> Case {
    let points = x.len();
    if rng.chance(4) {
        let first = 2 + index(rng, points - 1);
        return grown(rng, x, y, settings, first);
    }
    let mut room = room(rng);
    let mut table = Table {
        settings,
        split,
        hold: false,
        seam: None,
        x,
        y,
    };
    if rng.chance(24) {
        spoil(rng, &mut table, &mut room);
        table.seam = None;
    }
    if rng.chance(3) {
        return cut(rng, table, room);
    }
    table.hold = rng.chance(8);
    let queries = queries(rng, &table.x);
    Case::Build(table, room, queries)
}

/// A parabola, alone or in a combination, whose ratio is drawn to lie at an edge. One that touches zero has a discriminant near 0,
/// which rounding takes to either side, so that the original splits some of these; with a first end of zero it is a square.
pub fn parabola(rng: &mut Rng) -> Case {
    let x_prev = rng.whole(-8, 8) / 2.0;
    let x_next = x_prev + rng.pick(&[0.25, 1.0, 3.0, 30.0]);
    let mut price = || rng.between(0.01, 60.0);
    let (mut f_prev, mut f_next, other) = (price(), price(), price());
    if rng.chance(3) {
        f_prev = 0.0;
    }
    // With an end of zero, rounding can leave none.
    let root = |f_prev: f64, f_next: f64| touching(f_prev, f_next).unwrap_or(other);
    let average = match rng.below(10) {
        0 | 1 => root(f_prev, f_next),
        2 | 3 => {
            let root = root(f_prev, f_next);
            let beside = [root.next_up(), root.next_up().next_up(), root.next_down()];
            rng.pick(&beside)
        }
        4 => rng.pick(&[0.0, -0.0]),
        // Nothing to divide by.
        5 => {
            let ends = [(0.0, 0.0), (-0.0, -0.0), (0.0, LEAST), (-0.0, -LEAST)];
            (f_prev, f_next) = rng.pick(&ends);
            rng.pick(&[other, -other])
        }
        // The square of the sum overflows and the sum of the squares does not, so that the root is infinite.
        6 => {
            f_prev = rng.between(2.8e152, 3.2e152);
            f_next = f_prev;
            rng.pick(&[f64::INFINITY, f64::INFINITY, other, f_prev])
        }
        7 => -other,
        8 => {
            (f_prev, f_next) = (-f_prev, -f_next);
            rng.pick(&[-other, other, root(f_prev, f_next)])
        }
        _ => root(f_prev, f_next) * rng.between(0.0, 4.0),
    };
    let total = rng.whole(-8, 8);
    let quadratic = Quadratic::Min([x_prev, x_next, f_prev, f_next, average, total]);
    let recipe = if rng.chance(4) {
        let (g_prev, g_next) = (f_prev - average, f_next - average);
        let convex = [x_prev, x_next, g_prev, g_next, average, rng.unit(), total];
        let convex = match rng.below(3) {
            0 => Convex::Two(convex),
            1 => Convex::Three(convex),
            _ => Convex::FourMin(convex),
        };
        Recipe::Combination(rng.unit(), quadratic, convex)
    } else {
        Recipe::Quadratic(quadratic)
    };
    single(rng, recipe, x_prev, x_next)
}

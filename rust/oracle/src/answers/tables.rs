//! How the tables of curves are drawn, and where their curves are asked.

use super::rng::Rng;
use crate::{Settings, words};

/// The program that reads them has room for more.
pub const LONGEST: usize = 12;

/// What a curve is always asked for with.
#[derive(Clone)]
pub struct Points {
    pub settings: Settings,
    pub x: Vec<f64>,
    pub y: Vec<f64>,
}

impl Points {
    /// A table that is not refused.
    pub fn sound() -> Points {
        Points {
            settings: Settings {
                quadraticity: 0.3,
                monotonicity: 0.7,
                positivity: true,
            },
            x: vec![0.0, 1.0, 2.0, 4.0],
            y: vec![3.0, 1.0, 2.0, 5.0],
        }
    }

    /// The same table, as long as it has that many points.
    pub fn first(&self, points: usize) -> Points {
        Points {
            settings: self.settings,
            x: self.x[..points].to_vec(),
            y: self.y[..points].to_vec(),
        }
    }

    pub fn push_positivity(&self, words: &mut String) {
        words::push(words, self.settings.positivity.into());
    }

    pub fn push_settings(&self, words: &mut String) {
        let settings = [self.settings.quadraticity, self.settings.monotonicity];
        words::push_floats(words, &settings);
    }

    pub fn push_lists(&self, words: &mut String) {
        for list in [&self.x, &self.y] {
            words::push(words, list.len() as u64);
            words::push_floats(words, list);
        }
    }
}

/// What the averages of a table look like.
#[derive(Clone, Copy)]
pub enum Style {
    /// Anything that a price may be.
    Priced,
    /// Few bits, so that tests are met exactly; some are repeated.
    Neat,
    /// Low ones between high ones: this is what splits.
    Dips,
    /// Of both signs.
    Signed,
    /// All the same.
    Flat,
    /// One after the other by the same step.
    Steady,
    /// Some of them at the ends of the number range.
    Extreme,
}

pub const STYLES: [Style; 7] = [
    Style::Priced,
    Style::Dips,
    Style::Neat,
    Style::Signed,
    Style::Extreme,
    Style::Steady,
    Style::Flat,
];

const ENDS: [f64; 9] = [
    0.0,
    -0.0,
    1.0e-14,
    1.0e300,
    -1.0e300,
    f64::MAX,
    f64::MIN,
    f64::MIN_POSITIVE,
    f64::from_bits(3),
];

pub fn knots(rng: &mut Rng, style: Style, points: usize) -> Vec<f64> {
    let neat = matches!(style, Style::Neat | Style::Steady | Style::Flat);
    let wide = matches!(style, Style::Extreme) && rng.chance(3);
    let mut at = if neat {
        rng.whole(-8, 8) / 4.0
    } else {
        rng.between(-3.0, 30.0)
    };
    let mut knots = Vec::new();
    for _ in 0..points {
        knots.push(at);
        at += if neat {
            rng.pick(&[0.25, 0.5, 1.0, 2.0])
        } else {
            rng.between(0.0625, 1.5)
        };
    }
    if wide {
        knots[0] = rng.pick(&[f64::MIN, -1.0e300]);
        knots[points - 1] = rng.pick(&[f64::MAX, 1.0e300]);
    }
    knots
}

pub fn rate(rng: &mut Rng, style: Style) -> f64 {
    match style {
        Style::Priced => rng.between(0.0, 60.0),
        Style::Neat => rng.whole(0, 6) / 2.0,
        Style::Dips if rng.chance(2) => rng.between(0.0, 2.0),
        Style::Dips => rng.between(20.0, 60.0),
        Style::Signed | Style::Flat | Style::Steady => rng.whole(-40, 40) / 4.0,
        Style::Extreme if rng.chance(3) => rng.pick(&ENDS),
        Style::Extreme => rng.between(-10.0, 60.0),
    }
}

pub fn averages(rng: &mut Rng, style: Style, points: usize) -> Vec<f64> {
    let first = rate(rng, style);
    let step = match style {
        Style::Flat => Some(0.0),
        Style::Steady => Some(rng.whole(-4, 4) / 4.0),
        _ => None,
    };
    let mut averages = vec![first];
    for place in 1..points {
        averages.push(match step {
            Some(step) => first + step * place as f64,
            None => rate(rng, style),
        });
    }
    averages
}

/// Where a curve is asked, and whether it may answer outside its knots.
pub fn queries(rng: &mut Rng, x: &[f64], turn: usize) -> Vec<(bool, f64)> {
    let (first, last) = (x[0], x[x.len() - 1]);
    let mut asked = vec![(false, first), (false, last)];
    for pair in x.windows(2) {
        asked.push((rng.chance(4), rng.between(pair[0], pair[1])));
    }
    let knot = rng.pick(x);
    asked.extend([knot, knot.next_down(), knot.next_up()].map(|x| (true, x)));
    for allow in [false, true] {
        asked.extend([first.next_down(), last.next_up()].map(|x| (allow, x)));
    }
    asked.push((true, first - rng.between(0.5, 3.0)));
    asked.push((true, last + rng.between(0.5, 3.0)));
    let special = [f64::NAN, f64::INFINITY, f64::NEG_INFINITY];
    let (one, other) = (special[turn % 3], special[(turn + 1) % 3]);
    let even = turn.is_multiple_of(2);
    asked.extend([(even, one), (!even, other)]);
    asked
}

/// Tables with one fault or more; where there are more, the first is told.
pub fn refused() -> Vec<Points> {
    let mut tables = Vec::new();
    let mut with = |change: &dyn Fn(&mut Points)| {
        let mut table = Points::sound();
        change(&mut table);
        tables.push(table);
    };
    let outside = [-1.0, -f64::from_bits(1), 1.0 + f64::EPSILON, f64::NAN];
    with(&|t| t.x.truncate(3));
    with(&|t| t.y.truncate(3));
    with(&|t| t.y.clear());
    with(&|t| (t.x, t.settings.monotonicity) = (Vec::new(), 2.0));
    for wrong in outside {
        with(&|t| t.settings.monotonicity = wrong);
        with(&|t| t.settings.quadraticity = wrong);
    }
    with(&|t| (t.settings.monotonicity, t.settings.quadraticity) = (2.0, 2.0));
    for points in 0..2 {
        with(&|t| *t = t.first(points));
        with(&|t| {
            *t = t.first(points);
            t.settings.quadraticity = f64::INFINITY;
        });
    }
    with(&|t| (t.x, t.y) = (vec![f64::NAN], vec![f64::NAN]));
    for wrong in [f64::NAN, f64::INFINITY, f64::NEG_INFINITY] {
        for place in [0, 1, 3] {
            with(&|t| t.x[place] = wrong);
            with(&|t| t.y[place] = wrong);
        }
        with(&|t| (t.x[3], t.y[0]) = (wrong, wrong));
    }
    with(&|t| t.x[1] = 0.0);
    with(&|t| t.x[1] = -0.0);
    with(&|t| t.x[3] = 1.5);
    with(&|t| t.x.reverse());
    with(&|t| (t.x[3], t.y[3]) = (2.0, f64::NAN));
    tables
}

//! From where to where the strips of a curve run.

use super::rng::Rng;

/// A strip that is asked for, and whether the curve may answer outside its knots.
pub struct Strip {
    pub allow: bool,
    pub a: f64,
    pub b: f64,
}

/// One from knot to knot, one that should be priced and one that is refused. Turn by turn these last two go through all of their sorts.
pub fn strips(rng: &mut Rng, x: &[f64], turn: usize) -> [Strip; 3] {
    [
        at_knots(rng, x),
        priced(rng, x, turn),
        refused(rng, x, turn),
    ]
}

/// Two places of `count`, the first below the second.
fn places(rng: &mut Rng, count: usize) -> (usize, usize) {
    let first = rng.below(count as u64 - 1) as usize;
    let behind = rng.below((count - 1 - first) as u64) as usize;
    (first, first + 1 + behind)
}

fn at_knots(rng: &mut Rng, x: &[f64]) -> Strip {
    let (i, j) = places(rng, x.len());
    Strip {
        allow: rng.chance(4),
        a: x[i],
        b: x[j],
    }
}

/// A point of a period.
fn inside(rng: &mut Rng, x: &[f64], period: usize) -> f64 {
    rng.between(x[period], x[period + 1])
}

/// Two points of one period, the second above the first.
fn in_one(rng: &mut Rng, x: &[f64]) -> (f64, f64) {
    let period = rng.below(x.len() as u64 - 1) as usize;
    let a = inside(rng, x, period);
    (a, rng.between(a, x[period + 1]))
}

/// Points of two periods, where there are two.
fn across(rng: &mut Rng, x: &[f64]) -> (f64, f64) {
    if x.len() < 3 {
        return in_one(rng, x);
    }
    let (first, second) = places(rng, x.len() - 1);
    (inside(rng, x, first), inside(rng, x, second))
}

/// Points before the first knot and behind the last.
fn around(rng: &mut Rng, x: &[f64]) -> (f64, f64) {
    let before = x[0] - rng.between(0.5, 3.0);
    (before, x[x.len() - 1] + rng.between(0.5, 3.0))
}

/// A strip with rising ends, of which those outside are allowed. Between knots at the ends of the number range there may be no such points.
fn priced(rng: &mut Rng, x: &[f64], turn: usize) -> Strip {
    let (before, behind) = around(rng, x);
    let (a, b) = across(rng, x);
    let (allow, (a, b)) = match turn % 8 {
        0 | 4 => (turn.is_multiple_of(3), in_one(rng, x)),
        1 | 5 => (turn.is_multiple_of(3), (a, b)),
        2 => (true, (before, b)),
        3 => (true, (a, behind)),
        6 => (true, (before, behind)),
        _ => (true, (behind, rng.pick(&[behind + 0.5, f64::INFINITY]))),
    };
    Strip { allow, a, b }
}

/// A strip that is refused for one of its ends, or for both, or because they do not rise.
fn refused(rng: &mut Rng, x: &[f64], turn: usize) -> Strip {
    let (before, behind) = around(rng, x);
    let (a, b) = across(rng, x);
    let knot = rng.pick(x);
    let (allow, a, b) = match turn % 11 {
        0 => (false, before, b),
        1 => (turn.is_multiple_of(2), b, a),
        2 => (turn.is_multiple_of(2), f64::NAN, b),
        3 => (false, a, behind),
        4 => (turn.is_multiple_of(2), a, a),
        5 => (turn.is_multiple_of(2), a, f64::NAN),
        6 => (false, before, f64::NAN),
        7 => (turn.is_multiple_of(2), behind, before),
        8 => (false, f64::NAN, behind),
        9 => (turn.is_multiple_of(2), knot, knot),
        _ => (turn.is_multiple_of(2), x[x.len() - 1], x[0]),
    };
    Strip { allow, a, b }
}

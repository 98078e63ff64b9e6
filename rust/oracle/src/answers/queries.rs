//! Where a section is asked: at its breaks and beside them, and elsewhere.

use super::rng::Rng;
use crate::{Convex, Recipe, Record, words};

const SPECIAL: [f64; 5] = [f64::NEG_INFINITY, f64::INFINITY, f64::NAN, 0.0, -0.0];

/// The places asked, none twice.
pub fn queries(rng: &mut Rng, recipe: &Recipe, record: &Record, turn: usize) -> Vec<f64> {
    let (left, right) = ends(recipe);
    let mut asked = Vec::new();
    let mut ask = |x: f64| {
        if !asked.iter().any(|&other| words::same(other, x)) {
            asked.push(x);
        }
    };
    for x in breaks(recipe, record) {
        ask(x);
        ask(x.next_down());
        ask(x.next_up());
    }
    // Where the ends are not finite these steps are from 0 and of length 1.
    let start = if left.is_finite() { left } else { 0.0 };
    let length = if (right - start).is_finite() {
        right - start
    } else {
        1.0
    };
    for _ in 0..2 {
        ask(start + length * rng.unit());
    }
    ask(start - length * (0.5 + rng.unit()));
    ask(start + length * (1.5 + rng.unit()));
    ask(SPECIAL[turn % SPECIAL.len()]);
    ask(SPECIAL[(turn + 2) % SPECIAL.len()]);
    asked
}

/// The knots a section runs between.
fn ends(recipe: &Recipe) -> (f64, f64) {
    match recipe {
        &Recipe::Constant([_, _, x_prev]) => (x_prev, x_prev + 1.0),
        &Recipe::Gradient([_, _, x_prev, x_next, _]) => (x_prev, x_next),
        Recipe::Convex(part) => (part.args()[0], part.args()[1]),
        Recipe::Quadratic(part) | Recipe::Combination(_, part, _) => {
            (part.args()[0], part.args()[1])
        }
    }
}

/// Every place where the section's formula may change.
fn breaks(recipe: &Recipe, record: &Record) -> Vec<f64> {
    let (left, right) = ends(recipe);
    let mut breaks = vec![left];
    if !matches!(recipe, Recipe::Constant(_)) {
        breaks.push(right);
    }
    let slots = &record.slots;
    if record.tag & 0x1000 != 0 {
        breaks.extend([slots[2], slots[3]]);
    }
    if record.tag & 0x0080 != 0 {
        breaks.extend([slots[22], slots[23]]);
    } else if let Recipe::Convex(part) | Recipe::Combination(_, _, part) = recipe {
        breaks.push(eta_break(part, slots[14]));
    }
    breaks
}

/// The last place whose share of the period is not above eta, so that the break
/// is met to the last bit.
fn eta_break(part: &Convex, length: f64) -> f64 {
    let &[x_prev, _, _, _, _, eta, _] = part.args();
    let below = |x: f64| (x - x_prev) / length <= eta;
    let mut x = x_prev + eta * length;
    for _ in 0..64 {
        if below(x) {
            break;
        }
        x = x.next_down();
    }
    for _ in 0..64 {
        if !below(x.next_up()) {
            break;
        }
        x = x.next_up();
    }
    x
}

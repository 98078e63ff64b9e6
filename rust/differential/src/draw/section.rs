//! Sections by themselves: of every kind from its arguments, and from records of any numbers.

use havgrunel::{FIELDS, SLOTS, Split};
use oracle::answers::rng::Rng;
use oracle::{Convex, Quadratic, Recipe, Record};

use super::{ENDS, index, number, pattern, tag};
use crate::case::{Case, Single};

/// A period and what a build would know of it, with some numbers changed for any others.
pub fn section(rng: &mut Rng) -> Case {
    let neat = rng.chance(2);
    let rate = |rng: &mut Rng| match neat {
        true => rng.whole(-4, 20) / 2.0,
        false => rng.between(-10.0, 60.0),
    };
    let x_prev = rate(rng);
    let x_next = x_prev + rng.pick(&[0.25, 1.0, 2.0, 30.0]);
    let (f_prev, f_next) = (rate(rng), rate(rng));
    let average = match rng.below(3) {
        0 => rate(rng) / 8.0,
        1 => rate(rng),
        _ => f_prev / 3.0,
    };
    let eta = match neat {
        true => rng.whole(0, 8) / 8.0,
        false => rng.unit(),
    };
    let total = rate(rng);
    let mut constant = [average, total, x_prev];
    let mut gradient = [f_prev, total, x_prev, x_next, f_next];
    let mut quadratic = [x_prev, x_next, f_prev, f_next, average, total];
    let (g_prev, g_next) = (f_prev - average, f_next - average);
    let mut convex = [x_prev, x_next, g_prev, g_next, average, eta, total];
    let lists = [
        &mut constant[..],
        &mut gradient,
        &mut quadratic,
        &mut convex,
    ];
    if rng.chance(3) {
        let changes = 1 + rng.below(2);
        for list in lists {
            for _ in 0..changes {
                list[index(rng, list.len())] = number(rng);
            }
        }
    }
    let quadratic = match rng.chance(3) {
        true => Quadratic::Plain(quadratic),
        false => Quadratic::Min(quadratic),
    };
    let convex = match rng.below(6) {
        0 => Convex::Two(convex),
        1 => Convex::Three(convex),
        2 => Convex::Four(convex),
        _ => Convex::FourMin(convex),
    };
    let recipe = match rng.below(8) {
        0 => Recipe::Constant(constant),
        1 => Recipe::Gradient(gradient),
        2 | 3 => Recipe::Convex(convex),
        4 | 5 => Recipe::Quadratic(quadratic),
        _ => {
            let weight = match rng.chance(2) {
                true => rng.unit(),
                false => number(rng),
            };
            Recipe::Combination(weight, quadratic, convex)
        }
    };
    single(rng, recipe, x_prev, x_next)
}

/// A section from its arguments, asked around its period.
pub fn single(rng: &mut Rng, recipe: Recipe, x_prev: f64, x_next: f64) -> Case {
    let record = oracle::section(&recipe).record();
    let lent = rng.pick(&[
        FIELDS,
        FIELDS,
        FIELDS,
        FIELDS,
        FIELDS + 1,
        SLOTS,
        FIELDS - 1,
        0,
    ]);
    Case::Section(Single {
        recipe,
        split: Split::Original,
        lent,
        asked: record_queries(rng, &record, x_prev, x_next),
    })
}

fn record_queries(rng: &mut Rng, record: &Record, x_prev: f64, x_next: f64) -> Vec<f64> {
    let slots = &record.slots;
    let mut asked = vec![rng.between(x_prev, x_next), rng.between(-9.0, 99.0)];
    for x in [
        x_prev,
        x_next,
        slots[2],
        slots[3],
        slots[22],
        slots[23],
        slots[13] + slots[18] * slots[14],
    ] {
        asked.extend([x.next_down(), x, x.next_up()]);
    }
    asked.extend([rng.pick(&ENDS), pattern(rng)]);
    asked
}

/// A record with any numbers in it.
pub fn record(rng: &mut Rng) -> Case {
    let tag = tag(rng);
    let mut slots = [0.0; FIELDS];
    let style = rng.below(4);
    for slot in &mut slots {
        *slot = match style {
            0 => rng.whole(-4, 8) / 2.0,
            1 => rng.between(-2.0, 9.0),
            2 => number(rng),
            _ => pattern(rng),
        };
    }
    if rng.chance(2) {
        // Places in order, so that every stretch of a split section is met.
        slots[1..5].sort_by(f64::total_cmp);
        slots[22..].sort_by(f64::total_cmp);
    }
    let record = Record { tag, slots };
    let (x_prev, x_next) = (slots[1], slots[13]);
    let asked = record_queries(rng, &record, x_prev, x_next);
    let lent = rng.pick(&[FIELDS, FIELDS, FIELDS, FIELDS, SLOTS, FIELDS - 1, 0]);
    let answer = rng.pick(&[3, 3, 3, 3, 3, 2, 0]);
    Case::Record(record, lent, answer, asked)
}

//! Tables that grow by a point at a time, with steps that go wrong.

use havgrunel::{MOST_POINTS, SLOTS, Split};
use oracle::Settings;
use oracle::answers::rng::Rng;

use super::tables::{averages, knots};
use super::{NOT_SHARES, index, number, queries, room, settings, shorten, tag};
use crate::case::{Case, Damage, Previous, Queries, Step};

pub fn growth(rng: &mut Rng) -> Case {
    // The longest tables grow by their last few points.
    let (total, first) = match rng.below(1024) {
        0 => {
            let total = MOST_POINTS + index(rng, 3);
            (total, total - 1 - index(rng, 4))
        }
        1..=8 => {
            let total = 41 + index(rng, 160);
            (total, total - 1 - index(rng, 8))
        }
        _ => {
            let total = 2 + index(rng, 17);
            (total, 2 + index(rng, total - 1))
        }
    };
    let (mut x, mut y) = (knots(rng, total), averages(rng, total));
    if rng.chance(24) {
        let wrong = rng.pick(&[f64::NAN, f64::INFINITY, f64::NEG_INFINITY]);
        let place = index(rng, total);
        match rng.below(3) {
            0 => x[place] = wrong,
            1 => y[place] = wrong,
            _ => x[place] = x[index(rng, total)],
        }
    }
    let settings = settings(rng);
    grown(rng, x, y, settings, first)
}

/// A table that grows from so many points on, by these settings.
pub fn grown(rng: &mut Rng, x: Vec<f64>, y: Vec<f64>, settings: Settings, first: usize) -> Case {
    let total = x.len();
    let final_size = rng.pick(&[total, total, total, total + 1, first, 0, usize::MAX]);
    let mut points = first;
    let mut steps = Vec::new();
    while points <= total {
        let mut step = Step {
            knots: points,
            averages: points,
            settings,
            split: Split::Original,
            localisation: first - 1,
            final_size,
            previous: Previous::Last,
            room: room(rng),
            queries: step_queries(rng, &x[..points]),
        };
        if rng.chance(10) {
            spoil_step(rng, &mut step, total);
        }
        steps.push(step);
        // A step may be skipped or taken twice.
        points += match rng.below(24) {
            0 => 0,
            1 => 2,
            _ => 1,
        };
    }
    Case::Growth { x, y, steps }
}

fn step_queries(rng: &mut Rng, x: &[f64]) -> Queries {
    let mut all = queries(rng, x);
    // Every step is asked, so each at a part of the places.
    let keep = |list: &mut Vec<f64>, rng: &mut Rng| list.retain(|_| rng.chance(4));
    keep(&mut all.inside, rng);
    keep(&mut all.anywhere, rng);
    all.breaks = rng.chance(4);
    all.strips.inside.truncate(3);
    all.strips.anywhere.truncate(3);
    all.strips.between.truncate(1);
    all
}

fn spoil_step(rng: &mut Rng, step: &mut Step, total: usize) {
    let sections = step.knots - 1;
    match rng.below(9) {
        0 => step.previous = Previous::None,
        1 => step.localisation = rng.pick(&[usize::MAX, usize::MAX - 1, 0, step.knots]),
        2 => step.averages = index(rng, total + 1),
        3 => step.settings = settings(rng),
        4 => step.settings.monotonicity = rng.pick(&NOT_SHARES),
        5 => shorten(rng, &mut step.room),
        6 => step.knots = index(rng, total + 1),
        _ => {
            let sections = match rng.below(6) {
                0 => rng.pick(&[0, 1, MOST_POINTS - 1, MOST_POINTS, usize::MAX]),
                _ => sections.saturating_sub(index(rng, 3)),
            };
            let (mut tags, mut slots) = (sections, sections.saturating_mul(SLOTS));
            if sections > MOST_POINTS {
                (tags, slots) = (3, 3 * SLOTS);
            }
            match rng.below(4) {
                0 => tags = tags.saturating_sub(1),
                1 => slots = slots.saturating_sub(1 + index(rng, SLOTS + 3)),
                _ => {}
            }
            let some = rng.chance(2);
            let last = sections.clamp(1, MOST_POINTS) - 1;
            let place = last.saturating_sub(index(rng, 2));
            step.previous = Previous::Damaged(Damage {
                sections,
                held: rng.chance(2),
                tags,
                slots,
                tag: some.then(|| (place, tag(rng))),
                slot: rng.chance(2).then(|| {
                    let slot = place * SLOTS + index(rng, SLOTS);
                    (slot, number(rng))
                }),
            });
        }
    }
}

//! Tables and sections made for the safe rule, and rules that are wrong in one part, each with a case that shows it.

use differential::careful;
use differential::case::{Case, Previous, Queries, Room, Sheets, Single, Step, Table};
use differential::parabola::Period;
use differential::safe::{Fate, NARROW, RULE, Rule, convex, may_split, parabola, touching};
use havgrunel::{FIELDS, Split};
use oracle::{Convex, Quadratic, Recipe, Settings};

const SETTINGS: Settings = Settings {
    quadraticity: 0.3,
    monotonicity: 0.7,
    positivity: true,
};

pub fn table(y: [f64; 4], split: Split) -> Table {
    Table {
        settings: SETTINGS,
        split,
        hold: false,
        seam: None,
        x: vec![0.0, 1.0, 2.0, 3.0],
        y: y.to_vec(),
    }
}

pub fn whole(y: [f64; 4]) -> Case {
    let table = table(y, Split::Safe);
    Case::Build(table, Room::default(), Queries::default())
}

pub fn held(y: [f64; 4]) -> Case {
    let table = Table {
        hold: true,
        ..table(y, Split::Safe)
    };
    Case::Build(table, Room::default(), Queries::default())
}

pub fn in_sheets(y: [f64; 4]) -> Case {
    Case::Sheets(Sheets {
        table: table(y, Split::Safe),
        room: Room::default(),
        cuts: vec![1, 2],
        others: vec![2],
        order: vec![2, 0, 1],
        given: [0.0; 3],
    })
}

/// Steps to three and to four points in these modes.
pub fn growing(y: [f64; 4], modes: [Split; 2]) -> Case {
    let Table { x, y, .. } = table(y, Split::Safe);
    let step = |(place, split): (usize, Split)| Step {
        knots: 3 + place,
        averages: 3 + place,
        settings: SETTINGS,
        split,
        localisation: 2,
        final_size: 4,
        previous: Previous::Last,
        room: Room::default(),
        queries: Queries::default(),
    };
    let steps = modes.into_iter().enumerate().map(step).collect();
    Case::Growth { x, y, steps }
}

fn single(recipe: Recipe) -> Case {
    Case::Section(Single {
        recipe,
        split: Split::Safe,
        lent: FIELDS,
        asked: vec![0.0, 0.25, 0.75, 1.0],
    })
}

/// A parabola over a length of 1.
fn over(f_prev: f64, f_next: f64, average: f64) -> Case {
    let args = [0.0, 1.0, f_prev, f_next, average, 0.0];
    single(Recipe::Quadratic(Quadratic::Min(args)))
}

/// The fourth kind over a length, from 3 down and back to 3: one with the average 1 touches zero.
fn fourth(length: f64, average: f64) -> Recipe {
    let rise = 3.0 - average;
    let args = [0.0, length, rise, rise, average, 0.5, 0.0];
    Recipe::Convex(Convex::FourMin(args))
}

/// One whose ratio is exactly at the bound.
fn narrow_fourth() -> Case {
    let at = |k: i32| fourth(1.0e12, NARROW * (1.0 + f64::from(k) * 1.0e-5));
    let ratio = |recipe: &Recipe| oracle::section(recipe).record().slots[21];
    let mut tried = (-20..=20).map(at);
    single(
        tried
            .find(|recipe| ratio(recipe) == NARROW)
            .expect("one of them"),
    )
}

/// A parabola that touches zero, and whose discriminant is above 0 by rounding alone.
fn touched() -> Case {
    let ends = (1..60).map(|end| (1.0, f64::from(end)));
    let mut at = ends.map(|(f_prev, f_next)| Period {
        x_prev: 0.0,
        x_next: 1.0,
        f_prev,
        f_next,
        average: touching(f_prev, f_next),
        total: 0.0,
    });
    let period = at.find(may_split).expect("one of them");
    over(period.f_prev, period.f_next, period.average)
}

/// A parabola from 0 that the original leaves whole, since its second test rounds below 0.
fn clamped() -> Case {
    let mut ends = (1..600).map(|end| f64::from(end) / 7.0);
    let f_next = ends.find(|&f_next| careful::touching(0.0, f_next).is_none());
    let f_next = f_next.expect("one of them");
    over(0.0, f_next, f_next / 10.0)
}

/// The tests and the touching average of the original.
fn originals(period: &Period) -> Option<f64> {
    let zeros = period.discriminant() > 0.0;
    careful::touching(period.f_prev, period.f_next).filter(|_| zeros)
}

fn no_discriminant(period: &Period) -> Option<f64> {
    let zeros = period.discriminant() > 0.0;
    (RULE.touching)(period).filter(|_| zeros)
}

fn any_ends(period: &Period) -> Option<f64> {
    let none = period.discriminant() <= 0.0;
    (!none).then(|| touching(period.f_prev, period.f_next))
}

fn own_tests(period: &Period) -> Option<f64> {
    originals(period).map(|_| touching(period.f_prev, period.f_next))
}

fn above(ratio: f64, bound: f64, then: Fate) -> Fate {
    if ratio > bound { then } else { parabola(ratio) }
}

/// A name, a rule that is wrong in one part, and a case that shows it.
pub fn wrong() -> Vec<(&'static str, Rule, Case)> {
    use Fate::{Level, Split, Whole};
    let falling = [0.0, 5.0, 3.0, 1.0];
    vec![
        (
            "split from 0 on",
            wrong!(parabola: |r| above(r, 0.0, parabola(r.max(0.5)))),
            over(4.0, 1.0, 1.0e-13),
        ),
        (
            "split at 1e-12",
            wrong!(parabola: |r| if r == NARROW { Split } else { parabola(r) }),
            over(4.0, 1.0, 1.0e-12),
        ),
        (
            "split above 1",
            wrong!(parabola: |r| above(r, 1.0, Split)),
            over(4.0, 1.0, 3.0),
        ),
        (
            "split just above 1",
            wrong!(parabola: |r| if r <= 1.0 + f64::EPSILON { parabola(r.min(1.0)) } else { Whole }),
            over(0.0, 3.0, 1.0_f64.next_up()),
        ),
        (
            "whole at 1",
            wrong!(parabola: |r| if r == 1.0 { Whole } else { parabola(r) }),
            touched(),
        ),
        (
            "level where the ratio is not a number",
            wrong!(parabola: |r| if r.is_nan() { Level } else { parabola(r) }),
            over(f64::INFINITY, 1.0, 2.0),
        ),
        (
            "the original's tests and touching average",
            wrong!(touching: originals),
            clamped(),
        ),
        (
            "the original's tests",
            wrong!(touching: own_tests),
            clamped(),
        ),
        (
            "whole where the discriminant is not a number",
            wrong!(touching: no_discriminant),
            over(1.0e155, 1.0e155, 1.0e154),
        ),
        (
            "ends below 0 too",
            wrong!(touching: any_ends),
            over(-4.0, -1.0, 0.5),
        ),
        (
            "level at 0",
            wrong!(level: |_| 0.0),
            over(4.0, 1.0, 1.0e-13),
        ),
        (
            "fourth kind split from 0 on",
            wrong!(convex: |r| if r > 0.0 { Split } else { Level }),
            single(fourth(1.0, 1.0e-13)),
        ),
        (
            "fourth kind split at 1e-12",
            wrong!(convex: |r| if r == NARROW { Split } else { convex(r) }),
            narrow_fourth(),
        ),
        (
            "fourth kind split where the ratio is not a number",
            wrong!(convex: |r| if r.is_nan() { Split } else { convex(r) }),
            single(fourth(0.0, 0.5)),
        ),
        (
            "fourth kind never level",
            wrong!(convex: |_| Split),
            single(fourth(1.0, 0.0)),
        ),
        (
            "zero is shaped",
            wrong!(at_zero: |_, _| false),
            whole([0.0, 5.0, 0.0, 1.0]),
        ),
        (
            "-0.0 is shaped",
            wrong!(at_zero: |average, held| average.to_bits() == 0 && !held),
            whole([0.0, 5.0, -0.0, 1.0]),
        ),
        (
            "a held period is zero too",
            wrong!(at_zero: |average, _| average == 0.0),
            held([0.0, 5.0, 3.0, -0.0]),
        ),
        (
            "an average below 0 is let by",
            wrong!(refuses: |_| false),
            whole([0.0, 5.0, -3.0, 1.0]),
        ),
        (
            "the last is let by",
            wrong!(refuses: |y| (RULE.refuses)(&y[..y.len().max(1) - 1])),
            whole([0.0, 5.0, 3.0, -1.0]),
        ),
        (
            "-0.0 is refused",
            wrong!(refuses: |y| y.iter().skip(1).any(|y| y.is_sign_negative())),
            whole([0.0, 5.0, -0.0, 1.0]),
        ),
        (
            "the first is read",
            wrong!(refuses: |y| y.iter().any(|&y| y < 0.0)),
            whole([-1.0, falling[1], falling[2], falling[3]]),
        ),
    ]
}

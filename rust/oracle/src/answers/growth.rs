//! Growth: tables that grow by a point at a time, each curve from the one before.

use super::Answers;
use super::curves::Table;
use super::rng::Rng;
use super::tables::{self, LONGEST, Points, STYLES, Style};
use super::told::Told;
use crate::{Settings, words};

const SEED: u64 = 0x6772_6f77_7468;

const QUADRATICITY: [f64; 4] = [0.3, 0.0, 0.7, 1.0];
const MONOTONICITY: [f64; 5] = [0.7, 0.0, 1.0, 0.25, -0.0];

/// Localisation, final size and how many points the table grows to: held to the
/// last point, shaped before that and grown from there, or held for good.
const SEQUENCES: [(usize, usize, usize); 19] = [
    (1, LONGEST, LONGEST),
    (1, 2, 5),
    (1, 4, 6),
    (2, 3, 6),
    (3, 5, 7),
    (1, 3, 5),
    (2, 6, 6),
    (5, 6, 8),
    (1, 0, 4),
    (3, 4, 7),
    (2, 5, 6),
    (1, 2, 4),
    (5, 7, 8),
    (3, usize::MAX, 6),
    (1, 5, 5),
    (2, 4, 6),
    (8, 10, 11),
    (1, 2, 5),
    (3, 6, 7),
];

/// All that a growth is asked with.
struct Growth {
    points: Points,
    localisation: usize,
    final_size: usize,
}

pub fn write() -> Answers {
    let mut rng = Rng::new(SEED);
    let mut told = Told::new();
    for turn in 0..SEQUENCES.len() {
        sequence(&mut told, &mut rng, turn);
    }
    told.forget();
    retained(&mut told);
    refused(&mut told);
    let counts = [
        ("growths", told.growths.asked),
        ("growths refused", told.growths.refused),
        ("builds to grow from", told.builds.asked),
        ("grown strips", told.strips),
        ("grown queries", told.queries),
    ];
    Answers {
        lines: told.lines,
        counts: counts.map(|(name, n)| (name.to_string(), n)).to_vec(),
    }
}

impl Growth {
    fn grow(&self, told: &mut Told) {
        told.grow(&self.words(), &self.points.x);
    }

    fn words(&self) -> String {
        let mut words = String::new();
        self.points.push_positivity(&mut words);
        self.points.push_settings(&mut words);
        words::push(&mut words, self.localisation as u64);
        words::push(&mut words, self.final_size as u64);
        self.points.push_lists(&mut words);
        words
    }
}

/// A table from its first window on. Before most growths one of its averages is
/// changed, as by whoever solves for them: without that a seam would replace a
/// node by nearly the same one.
fn sequence(told: &mut Told, rng: &mut Rng, turn: usize) {
    let (localisation, final_size, longest) = SEQUENCES[turn];
    let style = STYLES[turn % STYLES.len()];
    let mut whole = Points {
        settings: Settings {
            quadraticity: QUADRATICITY[turn % QUADRATICITY.len()],
            monotonicity: MONOTONICITY[turn % MONOTONICITY.len()],
            positivity: !rng.chance(3),
        },
        x: tables::knots(rng, style, longest),
        y: tables::averages(rng, style, longest),
    };
    for points in localisation + 1..=longest {
        let growth = Growth {
            points: whole.first(points),
            localisation,
            final_size,
        };
        growth.grow(told);
        ask(told, rng, &growth.points.x, turn + points);
        change(rng, style, &mut whole.y, points);
    }
}

/// Asks at some of the places where a build would be asked.
fn ask(told: &mut Told, rng: &mut Rng, x: &[f64], turn: usize) {
    let all = tables::queries(rng, x, turn);
    for &(allow, x) in all.iter().skip(turn % 4).step_by(4) {
        told.query(allow, x);
    }
}

fn change(rng: &mut Rng, style: Style, y: &mut [f64], points: usize) {
    if !rng.chance(3) {
        let place = 1 + rng.below(points as u64 - 1) as usize;
        y[place] = tables::rate(rng, style);
    }
}

/// Growth from curves of two and three points, grown or built, held or not: what
/// is retained of them, and how many points are too few.
fn retained(told: &mut Told) {
    let mut changed = Points::sound();
    changed.y[1] = 7.0;
    for points in 2..=3 {
        for held in [true, false] {
            for next in 2..=4 {
                first_window(told, points, held);
                past_window(changed.first(next)).grow(told);
            }
            build(told, points, held);
            past_window(changed.first(points + 1)).grow(told);
        }
    }
}

/// A curve to grow from.
fn first_window(told: &mut Told, points: usize, held: bool) {
    let growth = Growth {
        points: Points::sound().first(points),
        localisation: points - 1,
        final_size: if held { points + 1 } else { points },
    };
    growth.grow(told);
}

/// The same curve, built.
fn build(told: &mut Told, points: usize, held: bool) {
    let table = Table {
        points: Points::sound().first(points),
        hold: held,
        seam: None,
    };
    table.build(told);
}

/// A growth that is not in its first window, however few points it has.
fn past_window(points: Points) -> Growth {
    Growth {
        points,
        localisation: LONGEST,
        final_size: 4,
    }
}

/// Growths that are refused, in the first window and past it by turns. Past it a
/// refused one leaves no curve to grow from, and that comes before the faults of
/// the table.
fn refused(told: &mut Told) {
    first_window(told, 2, false);
    told.forget();
    past_window(Points::sound()).grow(told);
    for (place, points) in tables::refused().into_iter().enumerate() {
        // Two that stand together have like faults.
        let in_window = place / 2 % 2 == 0;
        match points.x.len().checked_sub(1).filter(|_| in_window) {
            Some(localisation) => {
                let window = Growth {
                    points,
                    localisation,
                    final_size: 0,
                };
                window.grow(told);
            }
            None => {
                let past = past_window(points);
                first_window(told, 2, false);
                past.grow(told);
                past.grow(told);
            }
        }
    }
}

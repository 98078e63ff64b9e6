//! Curves: short tables of every shape, their builds, and what they answer.

use super::Answers;
use super::rng::Rng;
use super::tables::{self, LONGEST, Points, STYLES};
use super::thinned;
use super::told::Told;
use crate::{Seam, Settings, words};

const SEED: u64 = 0x6375_7276_6573;

/// Builds that are drawn; those that must be refused stand in a list.
const DRAWN: usize = 130;

const QUADRATICITY: [f64; 7] = [0.3, 0.0, 1.0, 0.5, 0.9375, -0.0, 1.0e-3];
const MONOTONICITY: [f64; 5] = [0.7, 0.0, 1.0, 0.25, -0.0];

/// All that a build is asked with.
pub struct Table {
    pub points: Points,
    pub hold: bool,
    pub seam: Option<Seam>,
}

pub fn write() -> Answers {
    let mut rng = Rng::new(SEED);
    let mut told = Told::new();
    for turn in 0..DRAWN {
        let table = draw(&mut rng, turn);
        let queries = tables::queries(&mut rng, &table.points.x, turn);
        table.build(&mut told);
        for (allow, x) in thinned(queries, turn) {
            told.query(allow, x);
        }
    }
    for table in refused() {
        table.build(&mut told);
    }
    let counts = [
        ("builds", told.builds.asked),
        ("builds refused", told.builds.refused),
        ("curve strips", told.strips),
        ("curve queries", told.queries),
    ];
    Answers {
        lines: told.lines,
        counts: counts.map(|(name, n)| (name.to_string(), n)).to_vec(),
    }
}

impl Table {
    pub fn build(&self, told: &mut Told) {
        told.build(&self.words(), &self.points.x);
    }

    fn words(&self) -> String {
        let mut words = String::new();
        self.points.push_positivity(&mut words);
        words::push(&mut words, self.hold.into());
        self.points.push_settings(&mut words);
        self.points.push_lists(&mut words);
        if let Some(seam) = self.seam {
            words::push(&mut words, seam.count as u64);
            words::push_floats(&mut words, &[seam.f_next]);
        }
        words
    }
}

/// A table that is not refused.
fn draw(rng: &mut Rng, turn: usize) -> Table {
    let style = STYLES[turn % STYLES.len()];
    let points = 2 + turn % (LONGEST - 1);
    // Each setting is met with each style and length before long, since their
    // numbers share no divisor.
    let settings = Settings {
        quadraticity: QUADRATICITY[turn / 3 % QUADRATICITY.len()],
        monotonicity: MONOTONICITY[turn / 2 % MONOTONICITY.len()],
        positivity: !rng.chance(3),
    };
    let hold = rng.chance(4);
    let x = tables::knots(rng, style, points);
    let y = tables::averages(rng, style, points);
    let seam = rng.chance(4).then(|| Seam {
        count: rng.below(points as u64 - 1) as usize,
        f_next: tables::rate(rng, style),
    });
    Table {
        points: Points { settings, x, y },
        hold,
        seam,
    }
}

/// Tables with one fault or more, then those whose seam is too long.
fn refused() -> Vec<Table> {
    let table = |points, seam| Table {
        points,
        hold: false,
        seam,
    };
    let long = |count| Some(Seam { count, f_next: 2.0 });
    let faulty = tables::refused().into_iter();
    let mut tables: Vec<Table> = faulty.map(|points| table(points, None)).collect();
    for count in [3, 4, 5, usize::MAX - 1] {
        tables.push(table(Points::sound(), long(count)));
    }
    tables.push(table(Points::sound().first(2), long(1)));
    let mut still = Points::sound();
    still.x[3] = 2.0;
    tables.push(table(still, long(3)));
    tables
}

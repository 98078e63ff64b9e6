//! How often what occurred in the safe mode.

use oracle::{Quadratic, Recipe};

use super::{Ratio, Way, count};
use crate::expected::Safely;
use crate::parabola::Period;
use crate::safe::{NARROW, RULE};

/// What the ratio of a parabola is counted as: the first of these that holds.
const RATIOS: [Ratio; 11] = [
    ("not a number", f64::is_nan),
    ("infinite", f64::is_infinite),
    ("below 0", |ratio| ratio < 0.0),
    ("exactly 0", |ratio| ratio == 0.0),
    ("above 0, below 1e-12", |ratio| ratio < NARROW),
    ("exactly 1e-12", |ratio| ratio == NARROW),
    ("just above 1e-12", |ratio| {
        ratio <= NARROW * (1.0 + 1.0e-14)
    }),
    ("between", |ratio| ratio < 1.0),
    ("exactly 1", |ratio| ratio == 1.0),
    ("just above 1", |ratio| ratio <= 1.0 + 4.0 * f64::EPSILON),
    ("well above 1", |_| true),
];

/// The same of the fourth kind, whose ratios near 1e-12 are far apart.
const OTHERS: [Ratio; 6] = [
    ("not a number", f64::is_nan),
    ("at most 0", |ratio| ratio <= 0.0),
    ("above 0, below 1e-12", |ratio| ratio < NARROW),
    ("exactly 1e-12", |ratio| ratio == NARROW),
    ("just above 1e-12", |ratio| ratio <= NARROW * 1.01),
    ("well above 1e-12", |_| true),
];

#[derive(Clone, Default)]
pub struct Safe {
    /// What was accepted with positivity: whole tables, tables in sheets and steps of growth; and all that was without.
    pub builds: u64,
    pub cut: u64,
    pub steps: u64,
    pub free: u64,
    /// Steps that go on from a node that is not the original's.
    pub seams: u64,
    pub sections: Safely,
    /// Parabolas by themselves that may be split, by their ratios, and those of them whose discriminant is not a number.
    ratios: [u64; RATIOS.len()],
    overflows: u64,
    /// Fourth kinds by themselves that the original splits, by their ratios.
    others: [u64; OTHERS.len()],
}

/// The period of a parabola that may be split.
fn period(recipe: &Recipe) -> Option<Period> {
    let (Recipe::Quadratic(part) | Recipe::Combination(_, part, _)) = recipe else {
        return None;
    };
    let &[x_prev, x_next, f_prev, f_next, average, total] = part.args();
    matches!(part, Quadratic::Min(_)).then_some(Period {
        x_prev,
        x_next,
        f_prev,
        f_next,
        average,
        total,
    })
}

impl Safe {
    pub fn made(&mut self, way: Way, sections: Safely) {
        *match way {
            Way::Built => &mut self.builds,
            Way::Cut => &mut self.cut,
            Way::Grown => &mut self.steps,
        } += 1;
        self.sections.add(&sections);
    }

    /// A section by itself, and the ratio by which the original splits its other half.
    pub fn single(&mut self, recipe: &Recipe, other: Option<f64>) {
        if let Some(period) = period(recipe)
            && let Some(ratio) = RULE.ratio(&period)
        {
            count(&mut self.ratios, &RATIOS, ratio);
            self.overflows += u64::from(period.discriminant().is_nan());
        }
        if let Some(ratio) = other {
            count(&mut self.others, &OTHERS, ratio);
        }
    }

    pub fn add(&mut self, other: &Safe) {
        self.sections.add(&other.sections);
        for (mine, others) in [
            (&mut self.builds, other.builds),
            (&mut self.cut, other.cut),
            (&mut self.steps, other.steps),
            (&mut self.free, other.free),
            (&mut self.seams, other.seams),
            (&mut self.overflows, other.overflows),
        ] {
            *mine += others;
        }
        for (mine, others) in [
            (&mut self.ratios[..], &other.ratios[..]),
            (&mut self.others, &other.others),
        ] {
            for (mine, others) in mine.iter_mut().zip(others) {
                *mine += others;
            }
        }
    }

    /// Each count with the name of its row.
    pub fn rows(&self) -> Vec<(String, u64)> {
        let Safely {
            zero,
            split,
            newly,
            whole,
            level,
            other_level,
            at_narrow,
            at_one,
        } = self.sections;
        let mut rows: Vec<(String, u64)> = [
            ("safe tables built", self.builds),
            ("safe tables cut, all sheets accepted", self.cut),
            ("safe steps of growth", self.steps),
            ("safe ones of all these without positivity", self.free),
            ("safe steps from a node of the rule's own", self.seams),
            ("in safe ones: sections at zero throughout", zero),
            ("in safe ones: parabolas split", split),
            ("in safe ones: that the original leaves whole", newly),
            ("in safe ones: left whole that it splits", whole),
            ("in safe ones: level parabolas", level),
            ("in safe ones: level fourth kinds", other_level),
            ("in safe ones: ratios of exactly 1e-12", at_narrow),
            ("in safe ones: ratios of exactly 1", at_one),
        ]
        .map(|(name, count)| (name.into(), count))
        .into();
        let by_itself = "safe by itself,";
        for ((name, _), &count) in RATIOS.iter().zip(&self.ratios) {
            rows.push((format!("{by_itself} ratio {name}"), count));
        }
        for ((name, _), &count) in OTHERS.iter().zip(&self.others) {
            rows.push((format!("{by_itself} fourth {name}"), count));
        }
        let overflows = format!("{by_itself} discriminant not a number");
        rows.push((overflows, self.overflows));
        rows
    }
}

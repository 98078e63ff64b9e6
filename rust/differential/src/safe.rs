//! The safe split, written anew from its contract, with the processor's root: which averages are refused, which periods are zero
//! throughout, and what becomes of a section that positivity may split. Nothing here asks the library.

use crate::parabola::{Made, Period};

/// The share of its period below which a squeezed section counts as nothing.
pub const NARROW: f64 = 1.0e-12;

/// What becomes of a section at a ratio.
#[derive(Clone, Copy, PartialEq)]
pub enum Fate {
    Whole,
    Split,
    Level,
}

/// The rule by its parts, so that a test can put a wrong one in the place of each.
#[derive(Clone, Copy)]
pub struct Rule {
    /// Whether a table with these averages is refused by 29.
    pub refuses: fn(&[f64]) -> bool,
    /// Whether a period with this average is zero throughout, held or not.
    pub at_zero: fn(f64, bool) -> bool,
    /// The average at which the parabola over a period touches zero, where it may be split.
    pub touching: fn(&Period) -> Option<f64>,
    /// What becomes of a parabola that may be split, by its ratio.
    pub parabola: fn(f64) -> Fate,
    /// What becomes of the fourth convex monotone kind where the original splits it, by its ratio.
    pub convex: fn(f64) -> Fate,
    /// The price at which a section is level, by its average.
    pub level: fn(f64) -> f64,
}

/// The rule of the contract.
pub const RULE: Rule = Rule {
    refuses: |averages| averages.iter().skip(1).any(|&average| average < 0.0),
    at_zero: |average, held| average == 0.0 && !held,
    touching: |period| may_split(period).then(|| touching(period.f_prev, period.f_next)),
    parabola,
    convex,
    level: |average| average,
};

/// A discriminant that is not a number does not keep a parabola whole.
pub fn may_split(period: &Period) -> bool {
    let none = period.discriminant() <= 0.0;
    !none && period.f_prev >= 0.0 && period.f_next >= 0.0
}

/// The lower average at which a parabola with these ends, neither below zero, touches zero.
pub fn touching(f_prev: f64, f_next: f64) -> f64 {
    (f_prev + f_next - (f_prev * f_next).sqrt()) / 3.0
}

/// A ratio that is not a number leaves a parabola whole.
pub fn parabola(ratio: f64) -> Fate {
    match ratio {
        _ if ratio <= NARROW => Fate::Level,
        _ if ratio <= 1.0 => Fate::Split,
        _ => Fate::Whole,
    }
}

/// One that is not a number makes the fourth kind level.
pub fn convex(ratio: f64) -> Fate {
    if ratio > NARROW {
        Fate::Split
    } else {
        Fate::Level
    }
}

impl Rule {
    /// The ratio of a period's average to the one at which its parabola touches zero, where that may be split.
    pub fn ratio(&self, period: &Period) -> Option<f64> {
        (self.touching)(period).map(|root| period.average / root)
    }

    /// What the rule makes of the parabola over a period.
    pub fn made(&self, period: &Period) -> Made {
        let Some(root) = (self.touching)(period) else {
            return Made::Whole;
        };
        match (self.parabola)(period.average / root) {
            Fate::Whole => Made::Whole,
            Fate::Split => Made::Split(root),
            Fate::Level => Made::Level((self.level)(period.average)),
        }
    }
}

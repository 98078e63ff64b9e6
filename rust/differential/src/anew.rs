//! A section of the original's with the parts made anew that a mode's rule is about.

use oracle::{Recipe, Record};

use crate::careful;
use crate::expected::Rule;
use crate::parabola::{Made, Parabola, Period};
use crate::safe::Fate;

/// The tag of a constant section, which the original has only where a last period is held.
pub const CONSTANT: u16 = 0x0100;

/// The bits of a tag: a parabola that may be split, that it is, and the other half.
const MIN: u16 = 0x4000;
pub const SPLIT: u16 = 0x1000;
const OTHER: u16 = 0x0fff;

/// The other half as the fourth convex monotone kind that is split, and the bit that says so.
pub const FOURTH_SPLIT: u16 = 0x0680;
pub const OTHER_SPLIT: u16 = 0x0080;
pub const OTHER_KIND: u16 = 0x0f80;

/// Where the weight of a combination's parabola stands, its ratio, and the other half with its total and its ratio, in a record.
const WEIGHT: usize = 0;
pub const RATIO: usize = 12;
const OTHER_FROM: usize = 13;
const OTHER_TOTAL: usize = 19;
pub const OTHER_RATIO: usize = 21;

/// A section of the original's made anew.
pub struct Anew {
    pub record: Record,
    parabola: Option<Parabola>,
    /// The other half of a combination, or all of a section whose parabola is not made anew.
    other: Option<oracle::Section>,
    /// What the rule made of its parabola.
    pub made: Option<Made>,
    /// The ratio by which the safe rule did, where it asks for one.
    pub ratio: Option<f64>,
}

/// The average of each part; a build has one for both.
#[derive(Clone, Copy)]
pub struct Averages {
    pub parabola: f64,
    pub other: f64,
}

/// The fourth kind, level at this price, in the place of one that the original splits.
fn level(told: &Record, price: f64) -> Record {
    let mut record = Record {
        tag: told.tag & !OTHER_SPLIT,
        ..*told
    };
    let (rise, eta) = (0.0, 0.5);
    let a = -(eta * rise + (1.0 - eta) * rise) / 2.0;
    let [x_prev, length] = [told.slots[OTHER_FROM], told.slots[OTHER_FROM + 1]];
    let total = told.slots[OTHER_TOTAL];
    let fields = [
        x_prev, length, rise, rise, price, eta, total, a, 0.0, 0.0, 0.0,
    ];
    record.slots[OTHER_FROM..].copy_from_slice(&fields);
    record
}

impl Anew {
    /// From the record of the original's section and its parts' averages. The record says what else they were made from, split or
    /// not. None where the rule is about nothing in it.
    pub fn of(told: &Record, averages: Averages, rule: Rule) -> Option<Anew> {
        let mut record = *told;
        if let Rule::Safe(rule) = rule
            && told.tag & OTHER_KIND == FOURTH_SPLIT
            && (rule.convex)(told.slots[OTHER_RATIO]) == Fate::Level
        {
            record = level(told, (rule.level)(averages.other));
        }
        if told.tag & MIN == 0 {
            let changed = record.tag != told.tag;
            return changed.then(|| Anew::whole(record));
        }
        let period = Period {
            x_prev: told.slots[1],
            x_next: told.slots[4],
            f_prev: told.slots[7],
            f_next: told.slots[10],
            average: averages.parabola,
            total: told.slots[8],
        };
        let (made, ratio) = match rule {
            Rule::Careful(rule) => (careful::made(&period, rule), None),
            Rule::Safe(rule) => (rule.made(&period), rule.ratio(&period)),
        };
        let parabola = Parabola::new(period, made);
        let split = if parabola.is_split() { SPLIT } else { 0 };
        record.tag = record.tag & !SPLIT | split;
        record.slots[1..13].copy_from_slice(&parabola.fields());
        let other = oracle::section_of(&Record {
            tag: record.tag & OTHER,
            ..record
        });
        Some(Anew {
            record,
            parabola: Some(parabola),
            other,
            made: Some(made),
            ratio,
        })
    }

    /// The original's section of such a record.
    fn whole(record: Record) -> Anew {
        Anew {
            record,
            parabola: None,
            other: oracle::section_of(&record),
            made: None,
            ratio: None,
        }
    }

    /// The section of a curve's period that starts at this knot, with this total before it.
    pub fn at(told: &Record, from: f64, total: f64, average: f64, rule: Rule) -> Option<Anew> {
        let averages = Averages {
            parabola: average,
            other: average,
        };
        match rule {
            Rule::Safe(safe) if (safe.at_zero)(average, told.tag == CONSTANT) => {
                let zero = oracle::section(&Recipe::Constant([0.0, total, from]));
                Some(Anew::whole(zero.record()))
            }
            _ => Anew::of(told, averages, rule),
        }
    }

    fn mixed(
        &self,
        parabola: impl Fn(&Parabola) -> f64,
        other: impl Fn(&oracle::Section) -> f64,
    ) -> f64 {
        let weight = self.record.slots[WEIGHT];
        let parabola = self.parabola.as_ref().map(parabola);
        match (parabola, self.other.as_ref().map(other)) {
            (Some(parabola), Some(other)) => weight * parabola + (1.0 - weight) * other,
            (Some(alone), None) | (None, Some(alone)) => alone,
            (None, None) => unreachable!("a section has a part"),
        }
    }

    pub fn value(&self, x: f64) -> f64 {
        self.mixed(|parabola| parabola.value(x), |other| other.value(x))
    }

    pub fn primitive(&self, x: f64) -> f64 {
        self.mixed(|parabola| parabola.primitive(x), |other| other.primitive(x))
    }

    pub fn f_next(&self) -> f64 {
        self.mixed(Parabola::f_next, oracle::Section::f_next)
    }
}

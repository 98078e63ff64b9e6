//! What a section or a curve has to be: the original's, and in the careful and the safe mode the original's with every section made
//! anew that the mode's rule is about. The original has no such modes; its nodes, totals and choice of kinds are the same in all.

use oracle::{Recipe, Record, Refusal, Settings};

use crate::anew::{Anew, Averages, CONSTANT, FOURTH_SPLIT, OTHER_KIND, OTHER_RATIO, OTHER_SPLIT};
use crate::anew::{RATIO, SPLIT};
use crate::at_knots::Asked;
use crate::parabola::Made;
use crate::strip::Entry;
use crate::{careful, safe};

/// The refusal that the safe mode adds.
pub const AVERAGE_BELOW_ZERO: u8 = 29;

/// The rule of a mode that the original has not.
#[derive(Clone, Copy)]
pub enum Rule {
    Careful(careful::Rule),
    Safe(safe::Rule),
}

impl Rule {
    /// What is due of a table with these averages, where the original builds it or refuses it by number.
    pub fn due<T>(rule: Option<Rule>, averages: &[f64], judged: Result<T, u8>) -> Result<T, u8> {
        match rule {
            Some(Rule::Safe(rule)) if (rule.refuses)(averages) => {
                judged.and(Err(AVERAGE_BELOW_ZERO))
            }
            _ => judged,
        }
    }
}

/// A section by itself.
pub struct Section {
    original: oracle::Section,
    anew: Option<Anew>,
}

impl Section {
    /// The original's own.
    pub fn original(original: oracle::Section) -> Section {
        let anew = None;
        Section { original, anew }
    }

    /// From its arguments, by a mode's rule or by the original's.
    pub fn made(recipe: &Recipe, rule: Option<Rule>) -> Section {
        let original = oracle::section(recipe);
        let averages = match recipe {
            Recipe::Constant(_) | Recipe::Gradient(_) => None,
            Recipe::Convex(part) => Some([0.0, part.args()[4]]),
            Recipe::Quadratic(part) => Some([part.args()[4], 0.0]),
            Recipe::Combination(_, part, other) => Some([part.args()[4], other.args()[4]]),
        };
        let anew = averages.zip(rule).and_then(|([parabola, other], rule)| {
            let averages = Averages { parabola, other };
            Anew::of(&original.record(), averages, rule)
        });
        Section { original, anew }
    }

    /// The ratio by which the original splits it, if it does.
    pub fn ratio(&self) -> Option<f64> {
        let Record { tag, slots } = self.original.record();
        (tag & SPLIT != 0).then_some(slots[RATIO])
    }

    /// The ratio by which the original splits its other half of the fourth kind, if it does.
    pub fn other_ratio(&self) -> Option<f64> {
        let Record { tag, slots } = self.original.record();
        (tag & OTHER_KIND == FOURTH_SPLIT).then_some(slots[OTHER_RATIO])
    }

    pub fn record(&self) -> Record {
        let anew = self.anew.as_ref().map(|anew| anew.record);
        anew.unwrap_or_else(|| self.original.record())
    }

    pub fn value(&self, x: f64) -> f64 {
        let anew = self.anew.as_ref().map(|anew| anew.value(x));
        anew.unwrap_or_else(|| self.original.value(x))
    }

    pub fn primitive(&self, x: f64) -> f64 {
        let anew = self.anew.as_ref().map(|anew| anew.primitive(x));
        anew.unwrap_or_else(|| self.original.primitive(x))
    }

    pub fn f_next(&self) -> f64 {
        let anew = self.anew.as_ref().map(Anew::f_next);
        anew.unwrap_or_else(|| self.original.f_next())
    }
}

/// How many sections of a curve the original splits, how many of these at a ratio above 1, and how many of all are split by the rule.
#[derive(Clone, Copy, Default)]
pub struct Splits {
    pub original: u64,
    pub above: u64,
    pub kept: u64,
}

/// What became of the sections of a curve by the safe rule: those that are zero throughout, the parabolas that are split and those of
/// them that the original leaves whole, those that it splits and the rule leaves whole, the level ones of both halves, and the
/// parabolas whose ratio is exactly at either bound.
#[derive(Clone, Copy, Default)]
pub struct Safely {
    pub zero: u64,
    pub split: u64,
    pub newly: u64,
    pub whole: u64,
    pub level: u64,
    pub other_level: u64,
    pub at_narrow: u64,
    pub at_one: u64,
}

/// What a rule did to a curve.
#[derive(Clone, Copy)]
pub enum Seen {
    Careful(Splits),
    Safe(Safely),
}

impl Splits {
    fn see(&mut self, told: &Record, anew: &Anew) {
        if told.tag & SPLIT != 0 {
            self.original += 1;
            self.above += u64::from(told.slots[RATIO] > 1.0);
            self.kept += u64::from(anew.record.tag & SPLIT != 0);
        }
    }
}

impl Safely {
    pub fn add(&mut self, other: &Safely) {
        for (mine, others) in [
            (&mut self.zero, other.zero),
            (&mut self.split, other.split),
            (&mut self.newly, other.newly),
            (&mut self.whole, other.whole),
            (&mut self.level, other.level),
            (&mut self.other_level, other.other_level),
            (&mut self.at_narrow, other.at_narrow),
            (&mut self.at_one, other.at_one),
        ] {
            *mine += others;
        }
    }

    fn see(&mut self, told: &Record, anew: &Anew) {
        if anew.record.tag == CONSTANT {
            self.zero += 1;
            return;
        }
        let was_split = told.tag & SPLIT != 0;
        match anew.made {
            Some(Made::Split(_)) => {
                self.split += 1;
                self.newly += u64::from(!was_split);
            }
            Some(Made::Level(_)) => self.level += 1,
            Some(Made::Whole) => self.whole += u64::from(was_split),
            None => {}
        }
        let other = told.tag & OTHER_SPLIT != anew.record.tag & OTHER_SPLIT;
        self.other_level += u64::from(other);
        self.at_narrow += u64::from(anew.ratio == Some(safe::NARROW));
        self.at_one += u64::from(anew.ratio == Some(1.0));
    }
}

impl Seen {
    fn none(rule: Rule) -> Seen {
        match rule {
            Rule::Careful(_) => Seen::Careful(Splits::default()),
            Rule::Safe(_) => Seen::Safe(Safely::default()),
        }
    }

    fn see(&mut self, told: &Record, anew: &Anew) {
        match self {
            Seen::Careful(splits) => splits.see(told, anew),
            Seen::Safe(safely) => safely.see(told, anew),
        }
    }
}

/// The sections of a curve that are not the original's, by their places, and what answers from the last knot on.
struct Remade {
    sections: Vec<Option<Anew>>,
    tail: [f64; 3],
    seen: Seen,
}

pub struct Curve {
    original: oracle::Curve,
    last_knot: f64,
    remade: Option<Remade>,
    /// What the record of each section says behind its own numbers.
    at_knots: Vec<[f64; 3]>,
}

impl Remade {
    fn of(original: &oracle::Curve, x: &[f64], y: &[f64], rule: Rule) -> Remade {
        let mut seen = Seen::none(rule);
        let mut total = 0.0;
        let sections: Vec<Option<Anew>> = (0..original.sections())
            .map(|place| {
                let told = original.record(place);
                let (from, average, before) = (x[place], y[place + 1], total);
                total += average * (x[place + 1] - from);
                let anew = Anew::at(&told, from, before, average, rule)?;
                seen.see(&told, &anew);
                Some(anew)
            })
            .collect();
        let mut tail = original.extrapolation();
        if let Some(Some(last)) = sections.last() {
            tail[0] = last.value(x[x.len() - 1]);
        }
        Remade {
            sections,
            tail,
            seen,
        }
    }

    /// Puts the prices at the knots of its own sections in the place of the original's. They are those of the original's section with the
    /// same record; the totals are the table's.
    fn price(&self, x: &[f64], at_knots: &mut [[f64; 3]]) {
        let sections = self.sections.iter().zip(x.windows(2)).zip(at_knots);
        for ((anew, knots), [left, right, _]) in sections {
            if let Some(anew) = anew {
                let section = oracle::section_of(&anew.record).expect("a legal record");
                *left = section.value(knots[0]);
                *right = section.value(knots[1]);
            }
        }
    }
}

impl Curve {
    /// From the original's curve of a table, by a mode's rule or by the original's.
    pub fn new(
        original: oracle::Curve,
        settings: &Settings,
        x: &[f64],
        y: &[f64],
        rule: Option<Rule>,
    ) -> Curve {
        let remade = rule.map(|rule| Remade::of(&original, x, y, rule));
        let mut at_knots = oracle::knots(settings, x, y, &original);
        if let Some(remade) = &remade {
            remade.price(x, &mut at_knots);
        }
        Curve {
            original,
            last_knot: x[x.len() - 1],
            remade,
            at_knots,
        }
    }

    pub fn original(self) -> oracle::Curve {
        self.original
    }

    /// What the rule did; nothing where it is the original's.
    pub fn seen(&self) -> Option<Seen> {
        self.remade.as_ref().map(|remade| remade.seen)
    }

    fn anew(&self, place: usize) -> Option<&Anew> {
        self.remade.as_ref()?.sections.get(place)?.as_ref()
    }

    pub fn sections(&self) -> usize {
        self.original.sections()
    }

    pub fn held(&self) -> bool {
        self.original.held()
    }

    pub fn record(&self, place: usize) -> Record {
        let anew = self.anew(place).map(|anew| anew.record);
        anew.unwrap_or_else(|| self.original.record(place))
    }

    /// What its record says behind its own numbers.
    pub fn at_knots(&self, place: usize) -> Asked<'_> {
        Asked {
            all: &self.at_knots,
            place,
            held: self.held(),
        }
    }

    pub fn f_next(&self, place: usize) -> f64 {
        let anew = self.anew(place).map(Anew::f_next);
        anew.unwrap_or_else(|| self.original.f_next(place))
    }

    pub fn section_value(&self, place: usize, x: f64) -> f64 {
        let anew = self.anew(place).map(|anew| anew.value(x));
        anew.unwrap_or_else(|| self.original.section_value(place, x))
    }

    pub fn section_primitive(&self, place: usize, x: f64) -> f64 {
        let anew = self.anew(place).map(|anew| anew.primitive(x));
        anew.unwrap_or_else(|| self.original.section_primitive(place, x))
    }

    pub fn extrapolation(&self) -> [f64; 3] {
        let remade = self.remade.as_ref().map(|remade| remade.tail);
        remade.unwrap_or_else(|| self.original.extrapolation())
    }

    pub fn with_extrapolation(self, allow: bool) -> Curve {
        Curve {
            original: self.original.with_extrapolation(allow),
            ..self
        }
    }

    /// The value and the primitive at x. What is refused, and by which number, is the original's.
    pub fn answers(&self, x: f64) -> Result<[f64; 2], u8> {
        let value = self.original.value(x).map_err(Refusal::number);
        let primitive = self.original.primitive(x).map_err(Refusal::number);
        let original = match (value, primitive) {
            (Ok(value), Ok(primitive)) => [value, primitive],
            (Err(value), Err(primitive)) if value == primitive => return Err(value),
            _ => panic!("the original refuses one of value and primitive at {x:?}"),
        };
        let Some(remade) = &self.remade else {
            return Ok(original);
        };
        if x >= self.last_knot {
            let tail = oracle::section(&Recipe::Constant(remade.tail));
            return Ok([tail.value(x), tail.primitive(x)]);
        }
        let anew = self.original.place(x).and_then(|place| self.anew(place));
        Ok(anew.map_or(original, |anew| [anew.value(x), anew.primitive(x)]))
    }

    /// What is told of the total up to each knot.
    pub fn entries(&self, knots: &[f64]) -> impl Iterator<Item = Entry> {
        knots.iter().enumerate().map(|(place, &knot)| {
            let before = place.checked_sub(1);
            let [_, total] = self.answers(knot).expect("a knot is not refused");
            Entry {
                total,
                by_the_left: self.section_primitive(before.unwrap_or(0), knot),
                running: before.map_or(0.0, |before| self.at_knots[before][2]),
                is_last: place + 1 == knots.len(),
            }
        })
    }

    pub fn derivative(&self, x: f64) -> Result<f64, Refusal> {
        self.original.derivative(x)
    }
}

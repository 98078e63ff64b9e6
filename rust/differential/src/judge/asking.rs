//! Curves that were built, asked for values and primitives: one by one, and several at once.

use havgrunel::ffi;
use havgrunel::lent::Curve;
use oracle::Record;

use super::compare::{Agreed, Mismatch, same_number};
use super::several::{Due, Several, all, of_the_curve, same_answer};
use super::{Judge, tail};
use crate::case::Queries;
use crate::counts::Counts;
use crate::counts::marks::Of;
use crate::expected;
use crate::lent::{Lent, old};
use crate::{mark, strip};

/// A curve as it is asked, and the rules by which it is judged.
pub(super) struct Asking<'a> {
    pub knots: &'a [f64],
    pub tags: &'a [u16],
    pub slots: &'a [f64],
    pub curve: Curve,
    /// Entries for the answer of one query or strip.
    pub entries: usize,
    pub marks: mark::Rule,
    pub strips: strip::Rule,
}

/// What the original answers at a place, its price and its total, or its refusal.
pub(super) type Answer = Result<[f64; 2], u8>;

type One = fn(&[f64], &[u16], &[f64], &Curve, f64, &mut [f64]) -> u8;
type Many = fn(&[f64], &[u16], &[f64], &Curve, &[f64], &mut [f64]) -> ffi::Many;

/// One of the two numbers that are asked for at a place.
struct Figure {
    names: [&'static str; 2],
    one: One,
    many: Many,
    due: fn(mark::Rule, mark::Asked) -> Due,
    of: Of,
    number: fn([f64; 2]) -> f64,
}

const FIGURES: [Figure; 2] = [
    Figure {
        names: ["a value", "a value's refusal"],
        one: ffi::value,
        many: ffi::values,
        due: |rule, asked| (rule.value)(asked),
        of: Of::Values,
        number: |[value, _]| value,
    },
    Figure {
        names: ["a primitive", "a primitive's refusal"],
        one: ffi::primitive,
        many: ffi::primitives,
        due: |rule, asked| (rule.primitive)(asked),
        of: Of::Primitives,
        number: |[_, primitive]| primitive,
    },
];

const SEVERAL: Several = Several {
    part: "one of several queries",
    refusal: "a refusal of several queries",
    accepted: |counts| counts.marks.see(Of::Queries),
    refused: |counts| counts.marks.see(Of::QueriesRefused),
    by_the_mark: |counts| counts.marks.see(Of::FirstQuery),
};

impl Asking<'_> {
    /// What is due of one figure, where the original answers so.
    fn due(&self, figure: &Figure, answer: Answer) -> Due {
        answer.and_then(|[value, primitive]| {
            (figure.due)(self.marks, mark::Asked { value, primitive })
        })
    }

    /// Asks for the price and the total at a place, each by itself, and holds them against what is due.
    pub fn query(&self, x: f64, answer: Answer, counts: &mut Counts) -> Agreed {
        // An answer's own buffer is looked at with the curve's: after 4, 5, 7 and 10, before 12, 13, 15 and 21.
        let answer = match answer {
            Ok(_) | Err(12 | 13 | 15) if self.entries == 0 => Err(11),
            answer => answer,
        };
        counts.queries += 2;
        for figure in &FIGURES {
            let mut kept = [old(0), old(1), old(2)];
            let room = &mut kept[..self.entries.min(3)];
            let number = (figure.one)(self.knots, self.tags, self.slots, &self.curve, x, room);
            counts.number(number);
            let due = self.due(figure, answer);
            same_answer(figure.names, number, &kept, due).map_err(|mismatch| Mismatch {
                told: format!("at {:016x} ({x:?}): {}", x.to_bits(), mismatch.told),
                query: Some((self.curve.extrapolates, x)),
                ..mismatch
            })?;
            if let (Ok(answer), Err(mark::NOT_FINITE)) = (answer, due) {
                counts.marks.answer(figure.of, (figure.number)(answer));
            }
        }
        Ok(())
    }

    /// Asks for all of these places at once, as they come and without those that are refused.
    pub fn queries(&self, asked: &[(f64, Answer)], counts: &mut Counts) -> Agreed {
        let Some(&(_, first)) = asked.first() else {
            return Ok(());
        };
        let curve = of_the_curve(first);
        for figure in &FIGURES {
            let due = |&(x, answer): &(f64, Answer)| (x, self.due(figure, answer));
            let each: Vec<(f64, Due)> = asked.iter().map(due).collect();
            let told: Vec<(f64, Due)> = each.iter().copied().filter(|(_, d)| d.is_ok()).collect();
            for each in [&each, &told] {
                let xs: Vec<f64> = each.iter().map(|&(x, _)| x).collect();
                let due = all(each.iter().map(|&(_, due)| due));
                SEVERAL.check(xs.len(), due, curve, counts, |answers| {
                    let (tags, slots) = (self.tags, self.slots);
                    (figure.many)(self.knots, tags, slots, &self.curve, &xs, answers)
                })?;
                if each.len() == told.len() {
                    break;
                }
            }
        }
        Ok(())
    }
}

impl Judge {
    /// Asks the curve that was just written, and hands back the one that it is held against.
    pub(super) fn ask(
        &mut self,
        knots: &[f64],
        held: bool,
        curve: expected::Curve,
        queries: &Queries,
    ) -> Result<expected::Curve, Mismatch> {
        let mut inside = queries.inside.clone();
        if queries.breaks {
            inside.extend(breaks(&curve));
        }
        self.asked(knots, held, &curve, false, &inside)?;
        self.asked_strips(knots, held, &curve, false, &queries.strips.inside)?;
        let curve = curve.with_extrapolation(true);
        self.asked(knots, held, &curve, true, &queries.anywhere)?;
        self.asked_strips(knots, held, &curve, true, &queries.strips.anywhere)?;
        let curve = curve.with_extrapolation(false);
        let column: Vec<f64> = curve.entries(knots).map(|entry| entry.total).collect();
        let (asking, counts) = self.asking(knots, held, false);
        for &places in &queries.strips.between {
            asking.between(&column, places, counts)?;
            asking.between(&column[1..], places, counts)?;
        }
        Ok(curve)
    }

    fn asked_strips(
        &mut self,
        knots: &[f64],
        held: bool,
        curve: &expected::Curve,
        allow: bool,
        strips: &[(f64, f64)],
    ) -> Agreed {
        let total = |x: f64| curve.answers(x).map(|[_, total]| total);
        let (asking, counts) = self.asking(knots, held, allow);
        asking.strips(strips, total, counts)
    }

    fn asked(
        &mut self,
        knots: &[f64],
        held: bool,
        curve: &expected::Curve,
        allow: bool,
        xs: &[f64],
    ) -> Agreed {
        let (asking, counts) = self.asking(knots, held, allow);
        let answers: Vec<(f64, Answer)> = xs.iter().map(|&x| (x, curve.answers(x))).collect();
        for &(x, answer) in &answers {
            asking.query(x, answer, counts)?;
            // The derivative's refusal is the same everywhere, so not every query asks for it.
            if allow || !x.is_finite() {
                let judged = curve.derivative(x).map_err(oracle::Refusal::number);
                let due = judged.err().unwrap_or(0);
                let number = ffi::derivative(x);
                counts.number(number);
                same_number("the derivative", number, due).map_err(|mismatch| Mismatch {
                    query: Some((allow, x)),
                    ..mismatch
                })?;
            }
        }
        asking.queries(&answers, counts)
    }

    /// The curve that was just written, to be asked.
    fn asking<'a>(
        &'a mut self,
        knots: &'a [f64],
        held: bool,
        allow: bool,
    ) -> (Asking<'a>, &'a mut Counts) {
        let asking = Asking {
            knots,
            tags: &self.lent.tags,
            slots: &self.lent.slots,
            curve: mine(&self.lent, held, allow),
            entries: 1,
            marks: self.marks,
            strips: self.strips,
        };
        (asking, &mut self.counts)
    }
}

/// What the curve that was just written is beside its knots and records.
fn mine(lent: &Lent, held: bool, allow: bool) -> Curve {
    Curve {
        sections: lent.sections[0],
        held,
        extrapolates: allow,
        tail: tail(&lent.tail),
    }
}

/// Where the formulas of a curve's sections change, and beside it. Of a long curve only some sections are looked at.
pub(super) fn breaks(curve: &expected::Curve) -> Vec<f64> {
    let step = 1 + curve.sections() / 12;
    let mut breaks = Vec::new();
    for place in (0..curve.sections()).step_by(step) {
        let Record { tag, slots } = curve.record(place);
        let mut at = |x: f64| breaks.extend([x.next_down(), x, x.next_up()]);
        if tag & 0x1000 != 0 {
            at(slots[2]);
            at(slots[3]);
        }
        match tag & 0x0f80 {
            0x0680 => {
                at(slots[22]);
                at(slots[23]);
            }
            0x0300..=0x0600 => at(slots[13] + slots[18] * slots[14]),
            _ => {}
        }
    }
    breaks
}

//! Sections by themselves, from their arguments and from their records.

use havgrunel::{FIELDS, Split, ffi};
use oracle::{Convex, Quadratic, Recipe, Record};

use super::Judge;
use super::compare::{Agreed, Mismatch, same_answers, same_fields, same_marks, same_number};
use crate::case::Single;
use crate::expected::Section;
use crate::lent::{is_old, old};

impl Judge {
    pub(super) fn section(&mut self, single: &Single) -> Agreed {
        let (recipe, lent) = (&single.recipe, single.lent);
        let judged = Section::made(recipe, self.rule(single.split, true));
        let record = judged.record();
        self.counts.sections += 1;
        self.counts.single(record.tag);
        let mut tag = 0xa5c3;
        let mut slots: Vec<f64> = (0..lent).map(old).collect();
        let number = made(recipe, single.split, &mut tag, &mut slots);
        let due = if lent < FIELDS { 11 } else { 0 };
        self.counts.number(number);
        same_number("a section's refusal", number, due)?;
        let written = if due == 0 { FIELDS } else { 0 };
        for (place, &slot) in slots.iter().enumerate().skip(written) {
            if !is_old(place, slot) {
                let told = format!("slot {place} of {lent} was written to");
                return Err(Mismatch::new("a lent buffer", told));
            }
        }
        if due != 0 {
            return match tag {
                0xa5c3 => Ok(()),
                _ => Err(Mismatch::new(
                    "a lent buffer",
                    "the tag was written to".into(),
                )),
            };
        }
        match single.split {
            Split::Original => {}
            Split::Careful => judged.ratio().map_or((), |ratio| self.counts.ratio(ratio)),
            Split::Safe => self.counts.safe.single(recipe, judged.other_ratio()),
        }
        same_fields(tag, &slots[..FIELDS], &record, || "the section".into())?;
        self.section_asked(tag, &slots, &judged, &single.asked)
    }

    pub(super) fn record(
        &mut self,
        record: &Record,
        lent: usize,
        entries: usize,
        asked: &[f64],
    ) -> Agreed {
        let judged = oracle::section_of(record).map(Section::original);
        self.counts.sections += 1;
        let due = match &judged {
            _ if entries < 3 => 11,
            None => 15,
            Some(_) if lent < FIELDS => 15,
            Some(_) => 0,
        };
        // What is lent behind the section's own numbers is not looked at.
        let slots = record.slots.into_iter().chain((FIELDS..).map(old));
        let slots: Vec<f64> = slots.take(lent).collect();
        if let (0, Some(judged)) = (due, &judged) {
            self.counts.single(record.tag);
            return self.section_asked(record.tag, &slots, judged, asked);
        }
        let number = refused(record.tag, &slots, entries, 2)?;
        self.counts.number(number);
        same_number("a record's refusal", number, due)
    }

    fn section_asked(
        &mut self,
        tag: u16,
        slots: &[f64],
        judged: &Section,
        asked: &[f64],
    ) -> Agreed {
        // Room for one mark or none is too little.
        for marks in 0..2 {
            let number = refused(tag, slots, 3, marks)?;
            self.counts.number(number);
            same_number("a refusal for short marks", number, 11)?;
        }
        for &x in asked {
            let mut answers = [old(0), old(1), old(2), old(3)];
            let mut finite = [false; 3];
            let number = ffi::section(tag, slots, x, &mut answers, &mut finite);
            self.counts.number(number);
            self.counts.queries += 2;
            let here = |mut mismatch: Mismatch| {
                mismatch.query = Some((true, x));
                mismatch
            };
            same_number("a section's refusal", number, 0).map_err(here)?;
            let due = [judged.value(x), judged.primitive(x), judged.f_next()];
            same_answers(&answers[..3], &due, x).map_err(here)?;
            same_marks(self.marks, &finite, &due, x, &mut self.counts.marks).map_err(here)?;
            if !is_old(3, answers[3]) {
                let told = "answer 3 was written to".into();
                return Err(here(Mismatch::new("a lent buffer", told)));
            }
            // The same over marks that stood the other way.
            let mut others = [true; 3];
            ffi::section(tag, slots, x, &mut answers, &mut others);
            if finite[..2] != others[..2] || finite[2] || !others[2] {
                let told = format!("the marks are {finite:?}, and {others:?} over others");
                return Err(here(Mismatch::new("a lent buffer", told)));
            }
        }
        Ok(())
    }
}

/// The number by which a section is refused that is lent so much room, whatever stands in it: nothing is written.
fn refused(tag: u16, slots: &[f64], entries: usize, marks: usize) -> Result<u8, Mismatch> {
    let mut number = 0;
    for stood in [false, true] {
        let mut answers: Vec<f64> = (0..entries).map(old).collect();
        let mut finite = vec![stood; marks];
        number = ffi::section(tag, slots, 0.0, &mut answers, &mut finite);
        for (place, &answer) in answers.iter().enumerate() {
            if number != 0 && !is_old(place, answer) {
                let told = format!("answer {place} was written to");
                return Err(Mismatch::new("a lent buffer", told));
            }
        }
        if number != 0 && finite.iter().any(|&mark| mark != stood) {
            let told = "a mark was written to".into();
            return Err(Mismatch::new("a lent buffer", told));
        }
    }
    Ok(number)
}

fn quadratic_made(part: &Quadratic, split: Split, tag: &mut u16, slots: &mut [f64]) -> u8 {
    let &[a, b, c, d, e, f] = part.args();
    let min = match split {
        Split::Original => ffi::quadratic_min,
        Split::Careful => ffi::quadratic_min_careful,
        Split::Safe => ffi::quadratic_min_safe,
    };
    match part {
        Quadratic::Plain(_) => ffi::quadratic(a, b, c, d, e, f, tag, slots),
        Quadratic::Min(_) => min(a, b, c, d, e, f, tag, slots),
    }
}

fn convex_made(part: &Convex, split: Split, tag: &mut u16, slots: &mut [f64]) -> u8 {
    let &[a, b, c, d, e, f, g] = part.args();
    let min = match split {
        Split::Original | Split::Careful => ffi::convex_monotone4_min,
        Split::Safe => ffi::convex_monotone4_min_safe,
    };
    match part {
        Convex::Two(_) => ffi::convex_monotone2(a, b, c, d, e, f, g, tag, slots),
        Convex::Three(_) => ffi::convex_monotone3(a, b, c, d, e, f, g, tag, slots),
        Convex::Four(_) => ffi::convex_monotone4(a, b, c, d, e, f, g, tag, slots),
        Convex::FourMin(_) => min(a, b, c, d, e, f, g, tag, slots),
    }
}

/// The library's section. A combination is put together from two records, as the header has it.
fn made(recipe: &Recipe, split: Split, tag: &mut u16, slots: &mut [f64]) -> u8 {
    match recipe {
        &Recipe::Constant([a, b, c]) => ffi::everywhere_constant(a, b, c, tag, slots),
        &Recipe::Gradient([a, b, c, d, e]) => ffi::constant_grad(a, b, c, d, e, tag, slots),
        Recipe::Convex(part) => convex_made(part, split, tag, slots),
        Recipe::Quadratic(part) => quadratic_made(part, split, tag, slots),
        Recipe::Combination(weight, quadratic, convex) => {
            let (mut other_tag, mut other) = (0, [0.0; FIELDS]);
            let number = convex_made(convex, split, tag, slots);
            if number != 0 {
                return number;
            }
            let number = quadratic_made(quadratic, split, &mut other_tag, &mut other);
            *tag += other_tag;
            slots[0] = *weight;
            slots[1..13].copy_from_slice(&other[1..13]);
            number
        }
    }
}

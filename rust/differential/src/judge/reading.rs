//! Curves and records that are read from changed copies of what was built. Here the document alone says what is refused.

use havgrunel::lent::{Curve, Tail};
use havgrunel::{MOST_POINTS, SLOTS, ffi};
use oracle::Recipe;

use super::asking::Answer;
use super::compare::{Agreed, Mismatch, same_number};
use super::{Asking, Judge, breaks, built, due, record_at, tail};
use crate::case::{Reading, Room};
use crate::expected::{self, Rule};
use crate::lent::{is_old, old};

impl Judge {
    pub(super) fn reading(&mut self, reading: &Reading) -> Agreed {
        let table = &reading.table;
        let number = self.lay(table, &Room::default());
        let rule = self.table_rule(table);
        let judged = built(&table.settings, &table.x, &table.y, table.hold, None);
        let judged = Rule::due(rule, &table.y, judged);
        let points = table.x.len();
        let due = due(&judged, points, false);
        same_number("a build's refusal", number, due)?;
        let (false, Ok(built)) = (due != 0, judged) else {
            return Ok(());
        };
        let built = expected::Curve::new(built, &table.settings, &table.x, &table.y, rule);
        let breaks = if reading.queries.breaks {
            breaks(&built)
        } else {
            Vec::new()
        };
        let (mut tags, mut slots) = (self.lent.tags.clone(), self.lent.slots.clone());
        tags.resize(tags.len().saturating_add_signed(reading.tags as isize), 0);
        slots.resize(
            slots.len().saturating_add_signed(reading.slots as isize),
            0.0,
        );
        for &(place, tag) in &reading.new_tags {
            if let Some(old) = tags.get_mut(place) {
                *old = tag;
            }
        }
        for &(place, slot) in &reading.new_slots {
            if let Some(old) = slots.get_mut(place) {
                *old = slot;
            }
        }
        let curve = Curve {
            sections: points - 1,
            held: table.hold,
            extrapolates: false,
            tail: reading
                .tail
                .map_or_else(|| tail(&self.lent.tail), |told| tail(&told)),
        };
        let queries = &reading.queries;
        let inside: Vec<f64> = queries.inside.iter().chain(&breaks).copied().collect();
        let mut asking = Asking {
            knots: &reading.knots,
            tags: &tags,
            slots: &slots,
            curve,
            entries: reading.answer,
            marks: self.marks,
            strips: self.strips,
        };
        for (allow, xs) in [(false, &inside), (true, &queries.anywhere)] {
            asking.curve.extrapolates = allow;
            let curve = &asking.curve;
            let asked = xs.iter().map(|&x| {
                let answer = answer(&reading.knots, &tags, &slots, curve, x);
                (x, answer)
            });
            let asked: Vec<(f64, Answer)> = asked.collect();
            for &(x, answer) in &asked {
                asking.query(x, answer, &mut self.counts)?;
            }
            asking.queries(&asked, &mut self.counts)?;
        }
        let strips = &queries.strips;
        for (allow, strips) in [(false, &strips.inside), (true, &strips.anywhere)] {
            asking.curve.extrapolates = allow;
            let curve = asking.curve;
            let total = |x: f64| {
                let answer = answer(&reading.knots, &tags, &slots, &curve, x);
                answer.map(|[_, total]| total)
            };
            asking.strips(strips, total, &mut self.counts)?;
        }
        let column: Vec<f64> = built.entries(&table.x).map(|entry| entry.total).collect();
        for &places in &strips.between {
            asking.between(&column, places, &mut self.counts)?;
        }
        for &(points, number, entries) in &reading.records {
            self.read(points, &slots, number, entries)?;
        }
        Ok(())
    }

    /// The slots of one section, as the document hands them back.
    fn read(&mut self, points: usize, slots: &[f64], number: usize, entries: usize) -> Agreed {
        let due = match () {
            () if points < 2 => 4,
            () if points > MOST_POINTS => 10,
            () if slots.len() < SLOTS * (points - 1) || entries < SLOTS => 11,
            () if number >= points - 1 => 15,
            () => 0,
        };
        let mut into: Vec<f64> = (0..entries).map(old).collect();
        let told = ffi::record(points, slots, number, &mut into);
        self.counts.records += 1;
        self.counts.number(told);
        same_number("a record's refusal", told, due)?;
        let copied = if due == 0 { SLOTS } else { 0 };
        for (place, &mine) in into.iter().enumerate() {
            let right = if place < copied {
                mine.to_bits() == slots[SLOTS * number + place].to_bits()
            } else {
                is_old(place, mine)
            };
            if !right {
                let told = format!("entry {place} is {:016x}", mine.to_bits());
                return Err(Mismatch::new("a record that is read", told));
            }
        }
        Ok(())
    }
}

/// What the document has a query answer, over any knots and records; the numbers are the original's sections'.
fn answer(knots: &[f64], tags: &[u16], slots: &[f64], curve: &Curve, x: f64) -> Answer {
    let points = knots.len();
    if points < 2 {
        return Err(4);
    }
    if !knots.iter().all(|knot| knot.is_finite()) {
        return Err(5);
    }
    if !knots.windows(2).all(|pair| pair[0] < pair[1]) {
        return Err(7);
    }
    if points > MOST_POINTS {
        return Err(10);
    }
    if tags.len() < points - 1 || slots.len() < SLOTS * (points - 1) {
        return Err(11);
    }
    if x.is_nan() {
        return Err(12);
    }
    if !curve.extrapolates && !(knots[0]..=knots[points - 1]).contains(&x) {
        return Err(13);
    }
    let section = if x >= knots[points - 1] {
        let Tail { value, total, from } = curve.tail;
        oracle::section(&Recipe::Constant([value, total, from]))
    } else {
        let inner = &knots[1..points - 1];
        let above = inner.iter().position(|&knot| knot > x);
        let place = above.unwrap_or(points - 2);
        oracle::section_of(&record_at(tags, slots, place)).ok_or(15)?
    };
    Ok([section.value(x), section.primitive(x)])
}

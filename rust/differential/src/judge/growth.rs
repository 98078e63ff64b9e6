//! Tables that grow, from the curve before or from a damaged copy of it.

use havgrunel::lent::Previous as Lending;
use havgrunel::{MOST_POINTS, SLOTS, ffi};
use oracle::words::same;

use super::compare::{Agreed, Mismatch, same_number};
use super::{Judge, askable, built, due, method, record_at};
use crate::case::{Damage, Previous, Step};
use crate::counts::Way;
use crate::expected::{Curve, Rule};

/// The curve that a step of growth can go on from, as each side has it. The original's is of its own mode: growth takes over the node
/// on which the last kept section ends and no more, and only a safe section can end on another than the original's.
struct Kept {
    curve: oracle::Curve,
    tags: Vec<u16>,
    slots: Vec<f64>,
    sections: usize,
    held: bool,
}

impl Judge {
    pub(super) fn growth(&mut self, x: &[f64], y: &[f64], steps: &[Step]) -> Agreed {
        let mut kept = None;
        for (place, step) in steps.iter().enumerate() {
            self.step(x, y, step, &mut kept).map_err(|mut mismatch| {
                mismatch.step = place;
                mismatch
            })?;
        }
        Ok(())
    }

    fn step(&mut self, x: &[f64], y: &[f64], step: &Step, kept: &mut Option<Kept>) -> Agreed {
        let (x, y) = (&x[..step.knots], &y[..step.averages]);
        let points = x.len();
        let settings = &step.settings;
        let held = points != step.final_size;
        self.counts.steps += 1;
        self.counts.largest += u64::from(points >= MOST_POINTS - 1);
        self.counts.largest_window += u64::from(step.localisation == usize::MAX);
        let first = step.localisation.checked_add(1) == Some(points);
        let (mut tags, mut slots) = (Vec::new(), Vec::new());

        // What both sides are handed, and what is due. The original's own step is asked wherever it can be.
        let (previous, judged) = match (&step.previous, kept.as_ref()) {
            (Previous::None, _) | (Previous::Last, None) => {
                let localisation = askable(step.localisation);
                let judged = oracle::grow(settings, x, y, localisation, None, step.final_size);
                (None, judged.map_err(oracle::Refusal::number))
            }
            (Previous::Last, Some(kept)) => {
                let seam = kept.seam()?;
                let judged = if first || same_seam(seam, kept.curve.seam()) {
                    let localisation = askable(step.localisation);
                    let from = Some(&kept.curve);
                    let judged = oracle::grow(settings, x, y, localisation, from, step.final_size);
                    judged.map_err(oracle::Refusal::number)
                } else {
                    self.counts.safe.seams += 1;
                    built(settings, x, y, held, seam)
                };
                let lending = Lending {
                    sections: kept.sections,
                    held: kept.held,
                    tags: &kept.tags,
                    slots: &kept.slots,
                };
                (Some(lending), judged)
            }
            (Previous::Damaged(damage), kept) => {
                if let Some(kept) = kept {
                    tags.clone_from(&kept.tags);
                    slots.clone_from(&kept.slots);
                }
                damaged(damage, &mut tags, &mut slots);
                let seam = if first {
                    Ok(None)
                } else {
                    seam(damage.sections, damage.held, &tags, &slots)
                };
                let judged = seam.and_then(|seam| built(settings, x, y, held, seam));
                let lending = Lending {
                    sections: damage.sections,
                    held: damage.held,
                    tags: &tags,
                    slots: &slots,
                };
                (Some(lending), judged)
            }
        };

        self.lent.lend(points, &step.room);
        let (buffers, sections, tail) = self.lent.parts();
        let number = ffi::grow(
            x,
            y,
            method(settings, step.split),
            step.localisation,
            step.final_size,
            previous,
            buffers,
            sections,
            tail,
        );
        self.beside.lend(points, &step.room);
        let (buffers, sections, tail) = self.beside.lent.parts();
        let with_column = ffi::grow_with_column(
            x,
            y,
            method(settings, step.split),
            step.localisation,
            step.final_size,
            previous,
            buffers,
            sections,
            tail,
            &mut self.beside.column,
        );
        let rule = self.rule(step.split, settings.positivity);
        let judged = Rule::due(rule, y, judged);
        let due = due(&judged, points, self.lent.short(points));
        self.counts.number(number);
        same_number("a step's refusal", number, due)?;
        let curve = match judged {
            Ok(curve) if due == 0 => curve,
            _ => {
                self.lent.untouched(None)?;
                return self.same_with_column(x, with_column, due, None);
            }
        };
        // The seam is known from the previous curve, so the nodes can be asked of a build.
        let seam = match (&step.previous, kept.as_ref()) {
            _ if first => None,
            (Previous::Damaged(damage), _) => seam(damage.sections, damage.held, &tags, &slots)
                .expect("a step that was not refused"),
            (Previous::Last, Some(kept)) => kept.seam()?,
            _ => None,
        };
        let nodes = oracle::nodes(settings, x, y, seam).expect("a table that grew has nodes");
        let curve = Curve::new(curve, settings, x, y, rule);
        self.counts.made(Way::Grown, step.split, curve.seen());
        self.same_curve(x, &curve, &nodes)?;
        self.same_with_column(x, with_column, due, Some(&curve))?;
        if curve.held() != held {
            let told = format!("the original says {}", curve.held());
            return Err(Mismatch::new("whether a curve is held", told));
        }
        let curve = self.ask(x, held, curve, &step.queries)?;
        *kept = Some(Kept {
            curve: curve.original(),
            tags: self.lent.tags[..points - 1].to_vec(),
            slots: self.lent.slots[..SLOTS * (points - 1)].to_vec(),
            sections: points - 1,
            held,
        });
        Ok(())
    }
}

fn damaged(damage: &Damage, tags: &mut Vec<u16>, slots: &mut Vec<f64>) {
    tags.resize(damage.tags, 0x0100);
    slots.resize(damage.slots, 1.5);
    if let Some((place, tag)) = damage.tag
        && let Some(old) = tags.get_mut(place)
    {
        *old = tag;
    }
    if let Some((place, slot)) = damage.slot
        && let Some(old) = slots.get_mut(place)
    {
        *old = slot;
    }
}

impl Kept {
    /// What growth takes over from it.
    fn seam(&self) -> Result<Option<oracle::Seam>, Mismatch> {
        seam(self.sections, self.held, &self.tags, &self.slots).map_err(|number| {
            let told = format!("refusal {number} is due of a curve that was built");
            Mismatch::new("a seam", told)
        })
    }
}

fn same_seam(one: Option<oracle::Seam>, other: Option<oracle::Seam>) -> bool {
    match (one, other) {
        (Some(one), Some(other)) => one.count == other.count && same(one.f_next, other.f_next),
        (None, None) => true,
        _ => false,
    }
}

/// What growth takes over from a curve that is handed in so.
fn seam(
    sections: usize,
    held: bool,
    tags: &[u16],
    slots: &[f64],
) -> Result<Option<oracle::Seam>, u8> {
    if sections == 0 {
        return Err(9);
    }
    if sections >= MOST_POINTS || tags.len() < sections || slots.len() < SLOTS * sections {
        return Err(15);
    }
    let count = sections - usize::from(held);
    if count == 0 {
        return Ok(None);
    }
    let last = oracle::section_of(&record_at(tags, slots, count - 1)).ok_or(15)?;
    let f_next = last.f_next();
    Ok(Some(oracle::Seam { count, f_next }))
}

//! Curves that are built or grown a second time, with a column.

use havgrunel::ffi;

use super::Judge;
use super::compare::{Agreed, Mismatch, same_float, same_number};
use super::several::same_answer;
use crate::counts::strips::Of;
use crate::counts::{Counts, marks};
use crate::expected::Curve;
use crate::lent::{is_old, marked, old};

impl Judge {
    /// That a call with a column told what is due and left what the call without one left, and beside it the curve's column; `due` is what
    /// was due of the call without one.
    pub(super) fn same_with_column(
        &mut self,
        knots: &[f64],
        number: u8,
        due: u8,
        curve: Option<&Curve>,
    ) -> Agreed {
        let (beside, points) = (&self.beside, knots.len());
        let short = beside.column.len() < points;
        let due = if due == 0 && short { 11 } else { due };
        self.counts.number(number);
        same_number("a refusal with a column", number, due)?;
        let (0, Some(curve)) = (due, curve) else {
            if curve.is_some() {
                self.counts.strips.see(Of::ShortColumns);
            }
            beside.lent.untouched(None)?;
            return marked("column entry", &beside.column, 0..usize::MAX);
        };
        beside.lent.same_as(&self.lent)?;
        marked("column entry", &beside.column, points..usize::MAX)?;
        self.counts.strips.see(Of::Columns);
        for (place, entry) in curve.entries(knots).enumerate() {
            let (mine, due) = (beside.column[place], (self.strips.entry)(&entry));
            if is_old(place, mine) {
                let told = format!("column entry {place} was not written");
                return Err(Mismatch::new("an entry left as it was", told));
            }
            let what = || format!("column entry {place} of {points}");
            same_float("an entry of a column", what, mine, due)?;
            self.counts.strips.entry(&entry);
            let told = (self.strips.read)(due);
            if told.is_err() {
                self.counts.marks.answer(marks::Of::Entries, due);
            }
            read(&beside.column, place, 2, told, &mut self.counts)?;
        }
        // No entry, and no room for one.
        for place in [beside.column.len(), usize::MAX] {
            read(&beside.column, place, 2, Err(11), &mut self.counts)?;
        }
        read(&beside.column, 0, 0, Err(11), &mut self.counts)
    }
}

/// That the entry of a column is read so, into so much room.
fn read(
    column: &[f64],
    place: usize,
    room: usize,
    due: Result<f64, u8>,
    counts: &mut Counts,
) -> Agreed {
    let mut answer = [old(0), old(1)];
    let number = ffi::column_entry(column, place, &mut answer[..room]);
    counts.number(number);
    let names = ["an entry that is read", "the refusal of an entry"];
    same_answer(names, number, &answer, due)
}

//! Delivery months: their knots, and the curves that are built by them. The original is built on knots of this program's own calendar.

use havgrunel::ffi;

use super::compare::{Agreed, Mismatch, same_float, same_number};
use super::{Judge, lent_seam, method};
use crate::calendar::Asked;
use crate::case::{Months, Table};
use crate::counts::months::Of;
use crate::lent::{OLD_COUNT, is_old, mark, marked};

/// That these knots were written and nothing beyond them, or nothing at all.
fn same_knots(mine: &[f64], due: &[f64]) -> Agreed {
    for (place, (&mine, &due)) in mine.iter().zip(due).enumerate() {
        if is_old(place, mine) {
            let told = format!("knot {place} was not written");
            return Err(Mismatch::new("an entry left as it was", told));
        }
        same_float("a knot", || format!("knot {place}"), mine, due)?;
    }
    marked("knot", mine, due.len()..usize::MAX)
}

impl Judge {
    pub(super) fn months(&mut self, case: &Months) -> Agreed {
        let due = self.calendar.knots(&case.asked);
        self.counts.months.see(Of::Asked);
        if let Some(fault) = (self.calendar.fault)(&case.asked) {
            self.counts.months.fault(fault);
        }
        self.month_knots(case, &due)?;
        self.built_by_months(case, due)
    }

    /// Lends entries for these knots, or where there are none for as many as averages.
    fn lend_knots(&mut self, case: &Months, due: &Result<Vec<f64>, u8>) -> usize {
        let points = due.as_ref().map_or(case.table.y.len(), Vec::len);
        let entries = points.saturating_add_signed(case.room.knots as isize);
        mark(&mut self.knots, entries);
        points
    }

    /// The knots alone.
    fn month_knots(&mut self, case: &Months, due: &Result<Vec<f64>, u8>) -> Agreed {
        self.lend_knots(case, due);
        let entries = 1_usize.saturating_add_signed(case.room.sections as isize);
        let mut count: Vec<usize> = (OLD_COUNT..).take(entries).collect();
        let Asked {
            first,
            last,
            months,
        } = case.asked;
        let number = ffi::month_knots(first, last, months, &mut self.knots, &mut count);
        let due = match due {
            &Err(number) => Err(number),
            Ok(knots) if self.knots.len() < knots.len() || count.is_empty() => Err(11),
            Ok(knots) => Ok(&knots[..]),
        };
        self.counts.number(number);
        same_number("the refusal of knots", number, due.err().unwrap_or(0))?;
        match due {
            Ok(_) => self.counts.months.see(Of::Told),
            Err(11) => self.counts.months.see(Of::Short),
            Err(_) => {}
        }
        let knots = due.unwrap_or(&[]);
        same_knots(&self.knots, knots)?;
        let told = due.is_ok().then_some(knots.len());
        let counts = told.into_iter().chain(OLD_COUNT + told.iter().len()..);
        if let Some((&mine, due)) = count.iter().zip(counts).find(|&(&mine, due)| mine != due) {
            let told = format!("the library has {mine}, and {due} is due");
            return Err(Mismatch::new("the count of knots", told));
        }
        Ok(())
    }

    fn built_by_months(&mut self, case: &Months, due: Result<Vec<f64>, u8>) -> Agreed {
        let points = self.lend_knots(case, &due);
        self.lent.lend(points, &case.room);
        let (buffers, sections, tail) = self.lent.parts();
        let Asked {
            first,
            last,
            months,
        } = case.asked;
        let table = &case.table;
        let number = ffi::build_months(
            first,
            last,
            months,
            &table.y,
            method(&table.settings, table.split),
            table.hold,
            lent_seam(table),
            &mut self.knots,
            buffers,
            sections,
            tail,
        );
        let part = "the refusal of a build by months";
        let x = match due {
            Ok(x) => x,
            Err(due) => {
                self.counts.number(number);
                same_number(part, number, due)?;
                self.lent.untouched(None)?;
                return same_knots(&self.knots, &[]);
            }
        };
        let table = Table { x, ..table.clone() };
        let short = self.lent.short(points) || self.knots.len() < points;
        match self.same_build(part, &table, number, short)? {
            Ok(curve) => {
                same_knots(&self.knots, &table.x)?;
                self.counts.months.built(case);
                self.ask(&table.x, table.hold, curve, &case.queries)?;
                Ok(())
            }
            Err(_) => {
                self.counts.months.see(Of::Refused);
                same_knots(&self.knots, &[])
            }
        }
    }
}

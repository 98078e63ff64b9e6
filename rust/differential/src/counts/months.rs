//! Which delivery months were asked for.

use crate::calendar::{Asked, Fault, MONTHS};
use crate::case;

/// What is counted of them.
#[derive(Clone, Copy)]
pub enum Of {
    /// All, whole or not; those whose knots were told, and those with too few entries for them.
    Asked,
    Told,
    Short,
    /// Those that are not whole periods, by what is wrong first.
    Size,
    Outside,
    Falling,
    Start,
    End,
    /// Curves that were built by months, by quarters and by years; and builds of whole periods that were refused.
    ByMonths,
    ByQuarters,
    ByYears,
    Refused,
    /// Of the curves those that have a 29 February, that reach an end of the calendar, that are held and that have a seam.
    LeapDay,
    AtAnEnd,
    Held,
    Seamed,
}

const NAMES: [(Of, &str); 16] = [
    (Of::Asked, "delivery months asked, refused ones too"),
    (Of::Told, "in months: knots told"),
    (Of::Short, "in months: entries too few for the knots"),
    (Of::Size, "in months: not 1, 3 or 12 to a period"),
    (Of::Outside, "in months: outside the calendar"),
    (Of::Falling, "in months: the last before the first"),
    (Of::Start, "in months: no period starts so"),
    (Of::End, "in months: no period ends so"),
    (Of::ByMonths, "curves built by months"),
    (Of::ByQuarters, "curves built by quarters"),
    (Of::ByYears, "curves built by years"),
    (Of::Refused, "builds of whole periods refused"),
    (Of::LeapDay, "in these curves: a 29 February"),
    (Of::AtAnEnd, "in these curves: an end of the calendar"),
    (Of::Held, "in these curves: held last periods"),
    (Of::Seamed, "in these curves: seams"),
];

#[derive(Clone, Default)]
pub struct Months {
    counts: [u64; NAMES.len()],
}

impl Months {
    pub fn see(&mut self, of: Of) {
        self.counts[of as usize] += 1;
    }

    pub fn fault(&mut self, fault: Fault) {
        self.see(match fault {
            Fault::Size => Of::Size,
            Fault::Outside => Of::Outside,
            Fault::Falling => Of::Falling,
            Fault::Start => Of::Start,
            Fault::End => Of::End,
        });
    }

    /// A curve that was built.
    pub fn built(&mut self, case: &case::Months) {
        let Asked {
            first,
            last,
            months,
        } = case.asked;
        self.see(match months {
            1 => Of::ByMonths,
            3 => Of::ByQuarters,
            _ => Of::ByYears,
        });
        let february = 1;
        let leap_years = 4 * 12;
        for (holds, of) in [
            (
                (first..=last).any(|month| month % leap_years == february),
                Of::LeapDay,
            ),
            (first == 0 || last == MONTHS - 1, Of::AtAnEnd),
            (case.table.hold, Of::Held),
            (case.table.seam.is_some(), Of::Seamed),
        ] {
            if holds {
                self.see(of);
            }
        }
    }

    pub fn add(&mut self, other: &Months) {
        for (mine, others) in self.counts.iter_mut().zip(other.counts) {
            *mine += others;
        }
    }

    /// A name and how often that occurred, for each.
    pub fn rows(&self) -> Vec<(String, u64)> {
        let row = |&(of, name): &(Of, &str)| (name.into(), self.counts[of as usize]);
        NAMES.iter().map(row).collect()
    }
}

//! One answer, and several of one call, which answers all or names the first that it refuses.

use havgrunel::ffi;

use super::compare::{Agreed, Mismatch, same_float, same_number};
use crate::counts::Counts;
use crate::lent::{mark, marked};
use crate::mark::NOT_FINITE;

/// What is due of one query or strip.
pub(super) type Due = Result<f64, u8>;

/// What is due of several at once: all numbers, or the first refusal and whose it is.
pub(super) type All = Result<Vec<f64>, (u8, usize)>;

pub(super) fn all(due: impl Iterator<Item = Due>) -> All {
    due.enumerate()
        .map(|(place, due)| due.map_err(|number| (number, place)))
        .collect()
}

/// The refusals that come before any query or strip is looked at.
pub(super) fn of_the_curve<T>(due: Result<T, u8>) -> Option<u8> {
    due.err()
        .filter(|number| matches!(number, 4 | 5 | 7 | 10 | 11))
}

/// That a call told this number and wrote this answer, and nothing else into its marked buffer.
pub(super) fn same_answer(
    [part, refusal]: [&'static str; 2],
    number: u8,
    answers: &[f64],
    due: Due,
) -> Agreed {
    same_number(refusal, number, due.err().unwrap_or(0))?;
    if let Ok(due) = due {
        same_float(part, || part.into(), answers[0], due)?;
    }
    marked("answer", answers, usize::from(due.is_ok())..usize::MAX)
}

/// What a call for several is told and counted by.
pub(super) struct Several {
    pub part: &'static str,
    pub refusal: &'static str,
    /// How it is counted that more than one was accepted, refused, and refused by the mark.
    pub accepted: fn(&mut Counts),
    pub refused: fn(&mut Counts),
    pub by_the_mark: fn(&mut Counts),
}

impl Several {
    /// A call for so many, with room for them and two more, and with room for one fewer, which is refused before any of them is looked at
    /// but after what is wrong with the curve. Where none of them is to blame, their number is told.
    pub fn check(
        &self,
        count: usize,
        due: All,
        curve: Option<u8>,
        counts: &mut Counts,
        call: impl Fn(&mut [f64]) -> ffi::Many,
    ) -> Agreed {
        let due = curve.map_or(due, |number| Err((number, count)));
        if count > 1 {
            match due {
                Ok(_) => (self.accepted)(counts),
                Err(_) => (self.refused)(counts),
            }
            if let Err((NOT_FINITE, _)) = due {
                (self.by_the_mark)(counts);
            }
        }
        self.call(count + 2, count, &due, counts, &call)?;
        if count > 0 {
            let due = Err((curve.unwrap_or(11), count));
            self.call(count - 1, count, &due, counts, &call)?;
        }
        Ok(())
    }

    fn call(
        &self,
        room: usize,
        count: usize,
        due: &All,
        counts: &mut Counts,
        call: &impl Fn(&mut [f64]) -> ffi::Many,
    ) -> Agreed {
        let mut answers = Vec::new();
        mark(&mut answers, room);
        let told = call(&mut answers);
        counts.number(told.refusal);
        same_many(self.refusal, told, due.as_ref().err().copied(), count)?;
        let due = due.as_deref().unwrap_or(&[]);
        for (place, (&mine, &other)) in answers.iter().zip(due).enumerate() {
            let part = self.part;
            same_float(part, || format!("{part}, answer {place}"), mine, other)?;
        }
        marked("answer", &answers, due.len()..usize::MAX)
    }
}

/// That a call for so many told this refusal and whose it is, or none.
pub(super) fn same_many(
    refusal: &'static str,
    told: ffi::Many,
    due: Option<(u8, usize)>,
    count: usize,
) -> Agreed {
    let (number, place) = due.unwrap_or((0, count));
    same_number(refusal, told.refusal, number)?;
    if told.query == place {
        return Ok(());
    }
    let told = format!(
        "{refusal}, by {number}: the library names {}, and {place} of {count} is due",
        told.query
    );
    Err(Mismatch::new("which of several was refused first", told))
}

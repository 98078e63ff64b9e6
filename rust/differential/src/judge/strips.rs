//! Curves that were built, asked for strips: one by one, several at once, in runs and between places.

use havgrunel::{MOST_POINTS, ffi};

use super::Asking;
use super::compare::{Agreed, Mismatch};
use super::several::{Due, Several, all, of_the_curve, same_answer, same_many};
use crate::counts::strips::Of;
use crate::counts::{Counts, marks};
use crate::lent::mark;
use crate::mark::NOT_FINITE;
use crate::strip::{Between, STRIP_ENDS_NOT_RISING, Strip};

const MANY: Several = Several {
    part: "one of several strips",
    refusal: "a refusal of several strips",
    accepted: |counts| counts.strips.see(Of::Many),
    refused: |counts| counts.strips.see(Of::ManyRefused),
    by_the_mark: |counts| counts.marks.see(marks::Of::FirstStrip),
};

const RUN: Several = Several {
    accepted: |counts| counts.strips.see(Of::Runs),
    refused: |counts| counts.strips.see(Of::RunsRefused),
    by_the_mark: |counts| counts.marks.see(marks::Of::FirstOfRun),
    ..MANY
};

impl Asking<'_> {
    /// Asks for these strips in every way. `total` is what a query for the total answers.
    pub fn strips(
        &self,
        strips: &[(f64, f64)],
        total: impl Fn(f64) -> Due,
        counts: &mut Counts,
    ) -> Agreed {
        let strip = |&(a, b): &(f64, f64)| {
            let (from, to) = (total(a), total(b));
            Strip { a, b, from, to }
        };
        let due = |ends: &(f64, f64)| (self.strips.strip)(&strip(ends));
        let curve = of_the_curve(total(f64::NAN));
        for ends in strips {
            self.one(&strip(ends), counts)?;
        }
        // Those whose number is told or not finite, and those whose number is told.
        let answered = |strip: &&(f64, f64)| matches!(due(strip), Ok(_) | Err(NOT_FINITE));
        let answered: Vec<(f64, f64)> = strips.iter().filter(answered).copied().collect();
        let accepted = |strip: &&(f64, f64)| due(strip).is_ok();
        let accepted: Vec<(f64, f64)> = strips.iter().filter(accepted).copied().collect();
        for strips in [strips, &answered, &accepted] {
            self.many(strips, all(strips.iter().map(due)), curve, counts)?;
        }
        // The ends as they come, and those of strips that are answered in rising order.
        let ends = |strips: &[(f64, f64)]| -> Vec<f64> {
            strips.iter().flat_map(|&(a, b)| [a, b]).collect()
        };
        let mut rising = ends(&answered);
        rising.sort_by(f64::total_cmp);
        rising.dedup();
        for edges in [ends(strips), rising] {
            let strips: Vec<(f64, f64)> = edges.windows(2).map(|ab| (ab[0], ab[1])).collect();
            let each: Vec<Due> = strips.iter().map(due).collect();
            self.run(&edges, &each, curve, counts)?;
            // A run says no more than its first strip that is not finite: the others are asked one by one, and in the runs between such
            // strips.
            let Err((NOT_FINITE, _)) = all(each.iter().copied()) else {
                continue;
            };
            for ends in &strips {
                self.one(&strip(ends), counts)?;
            }
            let mut from = 0;
            for between in each.split(Result::is_err) {
                let edges = &edges[from..=from + between.len()];
                self.run(edges, between, curve, counts)?;
                from += between.len() + 1;
            }
        }
        Ok(())
    }

    fn one(&self, strip: &Strip, counts: &mut Counts) -> Agreed {
        let due = (self.strips.strip)(strip);
        self.see(strip, due, counts);
        // An answer without room is told where 11 stands, after what is wrong with the knots.
        let short = self.entries == 0 && of_the_curve(due).is_none();
        let due = if short { Err(11) } else { due };
        let mut answer = Vec::new();
        mark(&mut answer, self.entries);
        let number = ffi::strip(
            self.knots,
            self.tags,
            self.slots,
            &self.curve,
            strip.a,
            strip.b,
            &mut answer,
        );
        counts.number(number);
        let names = ["a strip", "a strip's refusal"];
        same_answer(names, number, &answer, due).map_err(|mismatch| Mismatch {
            strip: Some((self.curve.extrapolates, (strip.a, strip.b))),
            ..mismatch
        })
    }

    fn see(&self, strip: &Strip, due: Due, counts: &mut Counts) {
        let &Strip { a, b, from, to } = strip;
        let strips = &mut counts.strips;
        strips.see(Of::Asked);
        if from.is_ok() && to.is_err() {
            strips.see(Of::SecondEnd);
        }
        if let (Err(NOT_FINITE), Some(number)) = (due, strip.number()) {
            counts.marks.answer(marks::Of::Strips, number);
            if from.is_ok_and(f64::is_finite) && to.is_ok_and(f64::is_finite) {
                counts.marks.see(marks::Of::FiniteTotals);
            }
        }
        match due {
            Ok(_) | Err(NOT_FINITE) => {
                let (first, last) = (self.knots[0], self.knots[self.knots.len() - 1]);
                let across = self.knots.iter().any(|&knot| a < knot && knot < b);
                strips.see(match () {
                    () if a < first || last < b => Of::Outside,
                    () if across => Of::Across,
                    () => Of::Within,
                });
            }
            Err(STRIP_ENDS_NOT_RISING) => strips.see(if a == b { Of::Equal } else { Of::Reversed }),
            Err(_) => {}
        }
    }

    fn many(
        &self,
        strips: &[(f64, f64)],
        due: Result<Vec<f64>, (u8, usize)>,
        curve: Option<u8>,
        counts: &mut Counts,
    ) -> Agreed {
        let (starts, ends): (Vec<f64>, Vec<f64>) = strips.iter().copied().unzip();
        let call = |starts: &[f64], answers: &mut [f64]| {
            let (tags, slots) = (self.tags, self.slots);
            ffi::strips(self.knots, tags, slots, &self.curve, starts, &ends, answers)
        };
        MANY.check(strips.len(), due, curve, counts, |answers| {
            call(&starts, answers)
        })?;
        if let Some((_, fewer)) = starts.split_last() {
            let told = call(fewer, &mut []);
            counts.number(told.refusal);
            let refusal = "a refusal of unequal lists";
            same_many(refusal, told, Some((1, fewer.len())), fewer.len())?;
        }
        Ok(())
    }

    fn run(&self, edges: &[f64], each: &[Due], curve: Option<u8>, counts: &mut Counts) -> Agreed {
        let due = all(each.iter().copied());
        RUN.check(each.len(), due, curve, counts, |answers| {
            let (tags, slots) = (self.tags, self.slots);
            ffi::strip_run(self.knots, tags, slots, &self.curve, edges, answers)
        })
    }

    /// A strip between two places of a column, which may be too short.
    pub fn between(&self, column: &[f64], (i, j): (usize, usize), counts: &mut Counts) -> Agreed {
        let knots = self.knots;
        let asked = Between {
            knots,
            column,
            i,
            j,
        };
        let due = match () {
            () if knots.len() < 2 => Err(4),
            () if !knots.iter().all(|knot| knot.is_finite()) => Err(5),
            () if !knots.windows(2).all(|pair| pair[0] < pair[1]) => Err(7),
            () if knots.len() > MOST_POINTS => Err(10),
            () if column.len() < knots.len() || self.entries == 0 => Err(11),
            () => (self.strips.between)(&asked),
        };
        let mut answer = Vec::new();
        mark(&mut answer, self.entries);
        let number = ffi::strip_between(knots, column, i, j, &mut answer);
        counts.number(number);
        match due {
            Ok(_) => counts.strips.see(Of::Between),
            Err(NOT_FINITE) => {
                counts.strips.see(Of::Between);
                if let Some(number) = asked.number() {
                    counts.marks.answer(marks::Of::Between, number);
                }
            }
            Err(STRIP_ENDS_NOT_RISING) if i < j => counts.strips.see(Of::PastTheLast),
            Err(11) if self.entries > 0 => counts.strips.see(Of::BetweenShort),
            Err(_) => {}
        }
        let names = ["a strip between places", "a refusal between places"];
        same_answer(names, number, &answer, due).map_err(|mismatch| Mismatch {
            between: Some((i, j)),
            ..mismatch
        })
    }
}

//! A price or a running total, asked of a curve that was built. The library reads every knot of the curve it is lent before it
//! answers; the original owns its knots, trusts them and searches by halves.

use std::hint::black_box;

use oracle::answers::rng::Rng;
use oracle::{AT_HAND, plain};

use super::{GAS, SIZES};
use crate::ours::{Built, method};
use crate::report::Report;
use crate::same;
use crate::tables::{Table, winter};

/// How many queries a turn of single queries asks.
pub(super) const SINGLE: usize = 512;

/// How many are asked of one curve at once.
pub(super) const MANY: usize = 100_000;

#[derive(Clone, Copy)]
enum Asked {
    Value,
    Primitive,
}

impl Asked {
    fn name(self) -> &'static str {
        match self {
            Asked::Value => "value",
            Asked::Primitive => "primitive",
        }
    }

    fn ours(self, curve: &Built<'_>, x: f64) -> f64 {
        match self {
            Asked::Value => curve.value(x),
            Asked::Primitive => curve.primitive(x),
        }
        .unwrap_or(f64::NAN)
    }

    fn all_ours(self, curve: &Built<'_>, queries: &[f64], answers: &mut [f64]) {
        match self {
            Asked::Value => curve.values(queries, answers),
            Asked::Primitive => curve.primitives(queries, answers),
        }
        .expect("all queries are in range");
    }

    fn theirs(self, curve: &plain::Curve, x: f64) -> f64 {
        match self {
            Asked::Value => curve.value(x),
            Asked::Primitive => curve.primitive(x),
        }
        .unwrap_or(f64::NAN)
    }
}

pub(super) fn places(table: &Table, count: usize) -> Vec<f64> {
    let rng = &mut Rng::new(table.points() as u64);
    let (first, last) = (table.knots[0], table.knots[table.points() - 1]);
    (0..count).map(|_| rng.between(first, last)).collect()
}

pub(super) fn original(table: &Table) -> Option<plain::Curve> {
    AT_HAND.then(|| {
        plain::build(&GAS, &table.knots, &table.averages)
            .unwrap_or_else(|_| panic!("the original builds a winter"))
    })
}

pub fn single(report: &mut Report) {
    for asked in [Asked::Value, Asked::Primitive] {
        for points in SIZES {
            let name = format!("{} n={points}", asked.name());
            if !report.wants(&name) {
                continue;
            }
            let table = winter(points);
            let places = places(&table, SINGLE);
            let built = Built::new(method(&GAS), &table);
            let original = original(&table);
            if let Some(original) = &original {
                let ours = places.iter().map(|&x| asked.ours(&built, x));
                let theirs = places.iter().map(|&x| asked.theirs(original, x));
                same::numbers(
                    &name,
                    &ours.collect::<Vec<_>>(),
                    &theirs.collect::<Vec<_>>(),
                );
            }
            let mut ours = || {
                for &x in &places {
                    black_box(asked.ours(black_box(&built), black_box(x)));
                }
            };
            let mut theirs = original.as_ref().map(|original| {
                || {
                    for &x in &places {
                        black_box(asked.theirs(black_box(original), black_box(x)));
                    }
                }
            });
            let theirs = theirs.as_mut().map(|turn| turn as &mut dyn FnMut());
            report.row(name, "query", places.len(), &mut ours, theirs);
        }
    }
}

pub fn many(report: &mut Report) {
    let table = winter(4096);
    for (order, rising) in [("rising", true), ("any order", false)] {
        let mut places = places(&table, MANY);
        if rising {
            places.sort_by(f64::total_cmp);
        }
        for asked in [Asked::Value, Asked::Primitive] {
            let name = format!("many {}s n=4096 {order}", asked.name());
            if !report.wants(&name) {
                continue;
            }
            let built = Built::new(method(&GAS), &table);
            let original = original(&table);
            let mut answers = vec![0.0; places.len()];
            let mut others = vec![0.0; places.len()];
            if let Some(original) = &original {
                asked.all_ours(&built, &places, &mut answers);
                let theirs = places.iter().map(|&x| asked.theirs(original, x));
                same::numbers(&name, &answers, &theirs.collect::<Vec<_>>());
            }
            let mut ours = || {
                asked.all_ours(black_box(&built), black_box(&places), &mut answers);
                black_box(&answers);
            };
            let mut theirs = original.as_ref().map(|original| {
                || {
                    for (&x, answer) in black_box(&places).iter().zip(&mut others) {
                        *answer = asked.theirs(original, x);
                    }
                    black_box(&others);
                }
            });
            let theirs = theirs.as_mut().map(|turn| turn as &mut dyn FnMut());
            report.row(name, "query", places.len(), &mut ours, theirs);
        }
    }
}

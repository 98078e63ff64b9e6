//! Strips of a curve that was built, against the original's totals: at both ends of each strip, and in a run once at each edge. The library
//! reads every knot of the curve it is lent, once for both ends.

use std::hint::black_box;

use oracle::plain;

use super::query::{MANY, SINGLE, original, places};
use super::{GAS, SIZES};
use crate::ours::{Built, method};
use crate::report::Report;
use crate::same;
use crate::tables::{Table, winter};

/// The strip from `a` to `b` by two of the original's totals.
fn theirs(curve: &plain::Curve, a: f64, b: f64) -> f64 {
    let total = |x: f64| curve.primitive(x).unwrap_or(f64::NAN);
    (total(b) - total(a)) / (b - a)
}

/// A row of strips that are asked one by one: each by the library, and from one place to another by the original.
fn single<T: Copy>(
    report: &mut Report,
    name: String,
    table: &Table,
    strips: &[T],
    ours: impl Fn(&Built<'_>, T) -> f64,
    ends: impl Fn(T) -> (f64, f64),
) {
    let built = Built::new(method(&GAS), table);
    let original = original(table);
    let other = |original: &plain::Curve, strip: T| {
        let (a, b) = ends(strip);
        theirs(original, a, b)
    };
    if let Some(original) = &original {
        let mine: Vec<f64> = strips.iter().map(|&strip| ours(&built, strip)).collect();
        let others = strips.iter().map(|&strip| other(original, strip));
        same::numbers(&name, &mine, &others.collect::<Vec<_>>());
    }
    let mut mine = || {
        for &strip in strips {
            black_box(ours(black_box(&built), black_box(strip)));
        }
    };
    let mut others = original.as_ref().map(|original| {
        || {
            for &strip in strips {
                black_box(other(black_box(original), black_box(strip)));
            }
        }
    });
    let others = others.as_mut().map(|turn| turn as &mut dyn FnMut());
    report.row(name, "strip", strips.len(), &mut mine, others);
}

/// Strips between neighbours of these places, as they come, each in its order.
fn strips<T: Copy + PartialOrd>(places: &[T]) -> Vec<(T, T)> {
    let pairs = places.chunks_exact(2).map(|pair| (pair[0], pair[1]));
    let rising = pairs.map(|(a, b)| if a < b { (a, b) } else { (b, a) });
    rising.filter(|(a, b)| a != b).collect()
}

pub fn rows(report: &mut Report) {
    for points in SIZES {
        let name = format!("strip n={points}");
        if report.wants(&name) {
            let table = winter(points);
            let strips = strips(&places(&table, 2 * SINGLE));
            let ours = |built: &Built<'_>, (a, b)| built.strip(a, b).unwrap_or(f64::NAN);
            single(report, name, &table, &strips, ours, |strip| strip);
        }
    }
    for points in SIZES {
        let name = format!("strip between n={points}");
        if report.wants(&name) {
            let table = winter(points);
            let place = |x: f64| table.knots.partition_point(|&knot| knot < x);
            let places: Vec<usize> = places(&table, 2 * SINGLE).into_iter().map(place).collect();
            let ours = |built: &Built<'_>, (i, j)| built.strip_between(i, j).unwrap_or(f64::NAN);
            let ends = |(i, j): (usize, usize)| (table.knots[i], table.knots[j]);
            single(report, name, &table, &strips(&places), ours, ends);
        }
    }
    let name = "strip run n=4096 rising".to_string();
    if report.wants(&name) {
        run(report, name);
    }
}

/// Strips that adjoin, all in one call.
fn run(report: &mut Report, name: String) {
    let table = winter(4096);
    let mut edges = places(&table, MANY);
    edges.sort_by(f64::total_cmp);
    edges.dedup();
    let built = Built::new(method(&GAS), &table);
    let original = original(&table);
    let strips = edges.len() - 1;
    let mut answers = vec![0.0; strips];
    let mut others = vec![0.0; strips];
    let ours = |answers: &mut [f64]| {
        let told = black_box(&built).strip_run(black_box(&edges), answers);
        told.expect("all edges are in range and rise");
    };
    let theirs = |original: &plain::Curve, answers: &mut [f64]| {
        let total = |x: f64| original.primitive(x).unwrap_or(f64::NAN);
        let edges = black_box(&edges);
        let (mut a, mut from) = (edges[0], total(edges[0]));
        for (&b, answer) in edges[1..].iter().zip(answers) {
            let to = total(b);
            *answer = (to - from) / (b - a);
            (a, from) = (b, to);
        }
    };
    if let Some(original) = &original {
        ours(&mut answers);
        theirs(original, &mut others);
        same::numbers(&name, &answers, &others);
    }
    let mut mine = || {
        ours(&mut answers);
        black_box(&answers);
    };
    let mut others = original.as_ref().map(|original| {
        || {
            theirs(original, &mut others);
            black_box(&others);
        }
    });
    let others = others.as_mut().map(|turn| turn as &mut dyn FnMut());
    report.row(name, "strip", strips, &mut mine, others);
}

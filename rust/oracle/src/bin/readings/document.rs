//! How the document is read, as far as the original can show it.

use std::collections::BTreeSet;

use oracle::answers::rng::Rng;
use oracle::{Convex, Quadratic, Recipe, Refusal, Seam, Settings};
use oracle::{build, build_with, default_settings, legal_tags, nodes, section, words};

use crate::claim::{Report, panics, settings};

const KNOTS: [f64; 5] = [0.0, 1.0, 2.0, 4.0, 5.0];
const AVERAGES: [f64; 5] = [7.0, 1.0, 3.0, 2.0, 6.0];

pub fn show(report: &mut Report) {
    places(report);
    held(report);
    infinite_node(report);
    seams(report);
    many_points(report);
    not_a_number(report);
    negative_zero(report);
    tags(report);
}

fn refused<T>(outcome: Result<T, Refusal>) -> usize {
    outcome.map_or_else(|refusal| refusal.number().into(), |_| 0)
}

fn places(report: &mut Report) {
    report.claim("the section of a query", |claim| {
        let curve = build(&default_settings(), &KNOTS, &AVERAGES).expect("builds");
        let curve = curve.with_extrapolation(true);
        let mut agree = true;
        for (x, place) in [
            (-1.0, 0),
            (0.5, 0),
            (1.0_f64.next_down(), 0),
            (1.0, 1),
            (1.5, 1),
            (2.0, 2),
            (4.0_f64.next_down(), 2),
            (4.0, 3),
            (5.0_f64.next_down(), 3),
        ] {
            let seen = curve.place(x).expect("a query below the last knot");
            claim.number(&format!("at {x:?}"), seen, place);
            let value = curve.value(x).expect("extrapolation is on");
            agree &= words::same(value, curve.section_value(place, x));
        }
        claim.so("each answers by that section", agree);
    });
}

fn held(report: &mut Report) {
    report.claim("a held build uses no last node", |claim| {
        let set = default_settings();
        let free = build_with(&set, &KNOTS, &AVERAGES, false, None).expect("builds");
        let held = build_with(&set, &KNOTS, &AVERAGES, true, None).expect("builds");
        let same = (0..3).all(|place| held.record(place).same(&free.record(place)));
        claim.so("the sections before the last are as without", same);
        let last = held.record(3);
        claim.tags("last tag", &[last.tag], &[0x0100]);
        claim.floats("last fields", &last.slots[13..16], &[6.0, 8.0, 4.0]);
        claim.floats("record", &held.extrapolation(), &[6.0, 8.0, 4.0]);
    });
}

fn infinite_node(report: &mut Report) {
    report.claim("averages of 1.7e308 twice give an infinite node", |claim| {
        let averages = [0.0, 1.7e308, 1.7e308];
        for positivity in [false, true] {
            let set = settings(0.3, 0.7, positivity);
            let seen = nodes(&set, &[0.0, 1.0, 2.0], &averages, None).expect("builds");
            let wanted = [f64::INFINITY, 1.7e308, f64::INFINITY];
            claim.floats("nodes", &seen, &wanted);
        }
    });
}

fn seams(report: &mut Report) {
    report.claim("the seam is the last retained section's", |claim| {
        let set = default_settings();
        for hold in [false, true] {
            let curve = build_with(&set, &KNOTS, &AVERAGES, hold, None).expect("builds");
            let seam = curve.seam().expect("sections are retained");
            let retained = curve.sections() - usize::from(hold);
            claim.number("retained", seam.count, retained);
            claim.float("f_next", seam.f_next, curve.f_next(retained - 1));
        }
        let two = build_with(&set, &[0.0, 1.0], &[0.0, 1.0], true, None).expect("builds");
        claim.so("with 0 retained there is none", two.seam().is_none());
    });
    report.claim("too long a seam is refused by 8", |claim| {
        let with = |points: usize, count: usize| {
            let seam = Seam { count, f_next: 2.0 };
            let (x, y) = (&KNOTS[..points], &AVERAGES[..points]);
            build_with(&default_settings(), x, y, false, Some(seam))
        };
        for points in 2..=5 {
            for count in 0..=5 {
                let wanted = if points <= count + 1 { 8 } else { 0 };
                let name = format!("{points} points, count {count}");
                claim.number(&name, refused(with(points, count)), wanted);
            }
        }
        let overflows = panics(|| {
            let _ = with(3, usize::MAX);
        });
        claim.so("the largest count makes the original panic", overflows);
        let plain = build(&default_settings(), &KNOTS, &AVERAGES).expect("builds");
        let zero = with(5, 0).expect("builds");
        let same = (0..4).all(|place| zero.record(place).same(&plain.record(place)));
        claim.so("a count of 0 changes nothing", same);
    });
}

fn many_points(report: &mut Report) {
    report.claim("more than 4,096 points build", |claim| {
        let knots: Vec<f64> = (0..4097).map(f64::from).collect();
        let averages: Vec<f64> = (0..4097).map(|i| f64::from(i % 7)).collect();
        let curve = build(&default_settings(), &knots, &averages);
        claim.number("sections", curve.map_or(0, |c| c.sections()), 4096);
    });
}

fn not_a_number(report: &mut Report) {
    report.claim("any pattern of NaN is a NaN", |claim| {
        for pattern in [
            0x7ff0_0000_0000_0001,
            0x7ff8_0000_0000_0000,
            0xfff0_0000_0000_0001,
            0xffff_ffff_ffff_ffff,
        ] {
            let nan = f64::from_bits(pattern);
            let set = default_settings();
            let m = Settings {
                monotonicity: nan,
                ..set
            };
            let q = Settings {
                quadraticity: nan,
                ..set
            };
            let (x, y) = ([0.0, 1.0], [0.0, 1.0]);
            let seen = [
                refused(build(&m, &x, &y)),
                refused(build(&q, &x, &y)),
                refused(build(&set, &[0.0, nan], &y)),
                refused(build(&set, &x, &[0.0, nan])),
                refused(build(&set, &x, &y).and_then(|curve| curve.value(nan))),
            ];
            for (seen, wanted) in seen.into_iter().zip([2, 3, 5, 6, 12]) {
                claim.number("refused by", seen, wanted);
            }
        }
    });
}

fn negative_zero(report: &mut Report) {
    report.claim("-0.0 as quadraticity acts as 0", |claim| {
        let mut rng = Rng::new(1);
        let (mut same, mut never) = (true, true);
        for _ in 0..20_000 {
            let (x, y) = table(&mut rng);
            let m = rng.unit();
            let positivity = rng.chance(2);
            let minus = build(&settings(-0.0, m, positivity), &x, &y).expect("builds");
            let plus = build(&settings(0.0, m, positivity), &x, &y).expect("builds");
            for place in 0..minus.sections() {
                let record = minus.record(place);
                same &= record.same(&plus.record(place));
                never &= !words::same(record.slots[0], -0.0);
            }
        }
        claim.so("20,000 tables build alike", same);
        claim.so("slot 0 is never -0.0", never);
    });
    report.claim("an end node of -0.0 is not clamped", |claim| {
        let set = settings(0.3, 0.7, true);
        let knots = [0.0, 1.0, 2.0];
        let left = build(&set, &knots, &[0.0, -0.0, 0.0]).expect("builds");
        claim.tags("tag", &[left.record(0).tag], &[0x0200]);
        claim.float("left node", left.record(0).slots[13], -0.0);
        let right = build(&set, &knots, &[0.0, 0.0, -0.0]).expect("builds");
        claim.tags("tag", &[right.record(1).tag], &[0x0200]);
        claim.float("right node", right.record(1).slots[17], -0.0);
    });
}

/// A random rising table of 2 to 7 points.
pub fn table(rng: &mut Rng) -> (Vec<f64>, Vec<f64>) {
    let points = 2 + rng.below(6);
    let mut at = rng.whole(-4, 4);
    let (mut x, mut y) = (Vec::new(), Vec::new());
    for _ in 0..points {
        x.push(at);
        at += rng.between(0.125, 2.0);
        // Repeated and round averages give flat and touching sections.
        y.push(match rng.below(4) {
            0 => rng.whole(-1, 4),
            1 if !y.is_empty() => y[y.len() - 1],
            _ => rng.between(-2.0, 20.0),
        });
    }
    (x, y)
}

fn tags(report: &mut Report) {
    report.claim("25 tags are legal, 23 can be built", |claim| {
        let legal = legal_tags();
        claim.number("legal", legal.len(), 25);
        let mut seen = BTreeSet::new();
        let mut rng = Rng::new(2);
        for _ in 0..200_000 {
            let (x, y) = table(&mut rng);
            let q = match rng.below(4) {
                0 => 0.0,
                1 => 1.0,
                _ => rng.unit(),
            };
            let set = settings(q, rng.unit(), rng.chance(2));
            let curve = build(&set, &x, &y).expect("builds");
            seen.extend((0..curve.sections()).map(|place| curve.record(place).tag));
        }
        let never = legal.iter().copied().filter(|tag| !seen.contains(tag));
        let never: Vec<u16> = never.collect();
        claim.number("seen in 200,000 builds", seen.len(), 23);
        claim.tags("never seen", &never, &[0x4500, 0x5500]);
        let four = Convex::Four([0.0, 1.0, 1.0, 1.0, 2.0, 0.5, 0.0]);
        for (average, tag) in [(2.5, 0x4500), (0.5, 0x5500)] {
            let min = Quadratic::Min([0.0, 1.0, 3.0, 3.0, average, 0.0]);
            let made = section(&Recipe::Combination(0.5, min, four));
            claim.tags("by a direct call", &[made.record().tag], &[tag]);
        }
    });
}

//! The figures of the document that the original can be asked for.

use oracle::{Convex, Curve, Quadratic, Recipe, Refusal, Seam, Settings};
use oracle::{build, build_with, nodes, root, section};

use crate::claim::{Report, settings};

const NAN: f64 = f64::NAN;

pub fn show(report: &mut Report) {
    one_to_three(report);
    sections(report);
    choices(report);
    roots(report);
    seams(report);
}

fn built(settings: &Settings, x: &[f64], y: &[f64]) -> Curve {
    build(settings, x, y).expect("the table of a figure builds")
}

fn tags(curve: &Curve) -> Vec<u16> {
    (0..curve.sections())
        .map(|place| curve.record(place).tag)
        .collect()
}

fn answered(answer: Result<f64, Refusal>) -> f64 {
    answer.expect("the query of a figure is answered")
}

fn one_to_three(report: &mut Report) {
    report.claim("p1", |claim| {
        let curve = built(&settings(0.0, 0.0, false), &[0.0, 2.0], &[9.0, 2.0]);
        claim.tags("tag", &tags(&curve), &[0x0100]);
        for (x, value, primitive) in [(1.0, 2.0, 2.0), (2.0, 2.0, 4.0)] {
            claim.float("value", answered(curve.value(x)), value);
            claim.float("primitive", answered(curve.primitive(x)), primitive);
        }
        claim.floats("record", &curve.extrapolation(), &[2.0, 0.0, 0.0]);
    });

    let table = (&[0.0, 1.0, 2.0], &[0.0, 1.0, 3.0]);
    let set = settings(0.0, 1.0, false);
    report.claim("p2", |claim| {
        let curve = built(&set, table.0, table.1);
        let nodes = nodes(&set, table.0, table.1, None).expect("the table builds");
        claim.floats("nodes", &nodes, &[0.5, 2.0, 3.5]);
        claim.tags("tags", &tags(&curve), &[0x2000, 0x2000]);
        claim.float("value at 0.5", answered(curve.value(0.5)), 0.875);
        claim.float("value at 1.5", answered(curve.value(1.5)), 3.125);
        claim.floats("record", &curve.extrapolation(), &[3.5, 4.0, 2.0]);
    });
    report.claim("p3", |claim| {
        let curve = built(&set, table.0, table.1);
        let place = curve.place(1.0).expect("1 is below the last knot");
        claim.number("section counted from 0 at 1", place, 1);
        let own = curve.section_value(1, 1.0);
        claim.float("value at 1", answered(curve.value(1.0)), own);
        let refused = curve.value(-1.0).expect_err("extrapolation is off");
        claim.number("refused at -1 by", refused.number().into(), 13);
        let curve = curve.with_extrapolation(true);
        claim.float("value at -1 if allowed", answered(curve.value(-1.0)), 2.0);
    });
}

fn sections(report: &mut Report) {
    report.claim("p5", |claim| {
        let args = [0.0, 1.0, 4.0, 1.0, 0.5, 0.0];
        let made = section(&Recipe::Quadratic(Quadratic::Min(args)));
        claim.tags("tag", &[made.record().tag], &[0x5000]);
        for (x, value) in [(0.25, 0.25), (0.5, 0.0), (1.0, 1.0)] {
            claim.float("value", made.value(x), value);
        }
    });
    report.claim("p6", |claim| {
        let args = [0.0, 1.0, 4.0, 1.0, 3.0, 0.0];
        let made = section(&Recipe::Quadratic(Quadratic::Min(args)));
        claim.tags("tag", &[made.record().tag], &[0x5000]);
        claim.float("ratio", made.record().slots[12], 3.0);
        claim.float("value at 0.75", made.value(0.75), 1.5625);
    });
}

/// The middle one of three periods, whose neighbours give it the ends wanted.
fn choices(report: &mut Report) {
    let knots = [-1.0, 0.0, 1.0, 2.0];
    report.claim("p7", |claim| {
        let averages = [0.0, 0.0, 2.0, 12.0];
        let set = settings(0.0, 0.7, false);
        let nodes = nodes(&set, &knots, &averages, None).expect("the table builds");
        claim.floats("P and N", &[nodes[1] - 2.0, nodes[2] - 2.0], &[-1.0, 5.0]);
        for positivity in [false, true] {
            let curve = built(&settings(0.0, 0.7, positivity), &knots, &averages);
            claim.tags("tag", &[curve.record(1).tag], &[0x0300]);
            claim.float("e", curve.record(1).slots[18], 0.5);
            claim.float("value at 0.75", answered(curve.value(0.75)), 2.5);
        }
        for (positivity, tag) in [(false, 0x0500), (true, 0x0600)] {
            let curve = built(&settings(0.0, 0.0, positivity), &knots, &averages);
            claim.tags("tag with m 0", &[curve.record(1).tag], &[tag]);
            claim.float("e", curve.record(1).slots[18], 0.5);
        }
        let args = [0.0, 1.0, -1.0, 5.0, 2.0, 0.5, 0.0];
        let alone = section(&Recipe::Convex(Convex::Two(args)));
        claim.float("the section alone at 0.75", alone.value(0.75), 2.5);
    });
    report.claim("p8", |claim| {
        let averages = [0.0, 3.0, 1.0, 1.0];
        let set = settings(0.0, 1.0, false);
        let nodes = nodes(&set, &knots, &averages, None).expect("the table builds");
        claim.floats("P and N", &[nodes[1] - 1.0, nodes[2] - 1.0], &[1.0, 0.0]);
        let curve = built(&set, &knots, &averages);
        claim.tags("tag", &[curve.record(1).tag], &[0x0500]);
        claim.float("e", curve.record(1).slots[18], 0.0);
        claim.float("value at the left knot", answered(curve.value(0.0)), NAN);
    });
}

fn roots(report: &mut Report) {
    report.claim("p9", |claim| {
        let two = f64::from_bits(0x3ff6_a09e_667f_3bcd);
        let least = f64::from_bits(0x1e60_0000_0000_0000);
        for (a, wanted) in [
            (2304.0, 48.0),
            (2.0, two),
            (f64::from_bits(1), least),
            (-0.0, -0.0),
        ] {
            claim.float("root", root(a), wanted);
        }
    });
}

fn seams(report: &mut Report) {
    report.claim("p10", |claim| {
        let with = |count| {
            let seam = Seam { count, f_next: 2.0 };
            build_with(
                &settings(0.3, 0.7, true),
                &[0.0, 1.0, 2.0],
                &[0.0, 1.0, 3.0],
                false,
                Some(seam),
            )
        };
        claim.number("sections at 1", with(1).map_or(0, |c| c.sections()), 2);
        let refused = with(2).map_or_else(|refusal| refusal.number(), |_| 0);
        claim.number("refused at 2 by", refused.into(), 8);
    });
}

//! What the original does that can surprise.

use std::collections::BTreeMap;

use oracle::answers::rng::Rng;
use oracle::{Quadratic, Recipe, build, combination_accepts, nodes, section, words};

use crate::claim::{Report, panics, settings};
use crate::document::table;

const FOUR: [f64; 4] = [0.0, 1.0, 2.0, 3.0];

pub fn show(report: &mut Report) {
    zero_period(report);
    negative_average(report);
    lost_average(report);
    end_sections(report);
    order_of_sums(report);
    widest_knots(report);
    weight_check(report);
}

fn zero_period(report: &mut Report) {
    report.claim("a period at exactly 0 under positivity", |claim| {
        let averages = [0.0, 2.0, 0.0, 2.0];
        let mut rng = Rng::new(3);
        let mut qs = vec![0.0, -0.0, f64::from_bits(1), 0.3, 1.0_f64.next_down(), 1.0];
        qs.extend((0..1000).map(|_| rng.unit()));
        let count = qs.len();
        let not = |&&q: &&f64| {
            [0.0, 0.7, 1.0].iter().all(|&m| {
                let curve = build(&settings(q, m, true), &FOUR, &averages).expect("builds");
                curve.value(1.0).expect("in range").is_nan()
            })
        };
        claim.number(
            "quadraticities with a NaN at 1",
            qs.iter().filter(not).count(),
            count,
        );
    });
}

fn negative_average(report: &mut Report) {
    report.claim("a negative average between zero nodes", |claim| {
        let averages = [0.0, 1.0, -1.0, 1.0];
        let set = settings(0.3, 0.7, true);
        let seen = nodes(&set, &FOUR, &averages, None).expect("builds");
        claim.floats("nodes", &seen[1..3], &[0.0, 0.0]);
        for (q, tag, slots) in [
            (0.0, 0x0680, &[21][..]),
            (0.3, 0x5680, &[12, 21]),
            (1.0, 0x5000, &[12]),
        ] {
            let curve = build(&settings(q, 0.7, true), &FOUR, &averages).expect("builds");
            let record = curve.record(1);
            claim.tags(&format!("at {q}, tag"), &[record.tag], &[tag]);
            for &slot in slots {
                claim.float("ratio", record.slots[slot], f64::NEG_INFINITY);
            }
            for x in [1.25, 1.5, 1.75] {
                let primitive = curve.primitive(x).expect("in range");
                claim.float(&format!("primitive at {x}"), primitive, f64::NAN);
            }
        }
    });
}

fn lost_average(report: &mut Report) {
    report.claim("a ratio above 1 loses the average", |claim| {
        let args = [0.0, 1.0, 4.0, 1.0, 3.0, 0.0];
        let alone = section(&Recipe::Quadratic(Quadratic::Min(args)));
        claim.float("ratio", alone.record().slots[12], 3.0);
        let near = |seen: f64| (seen - 7.0 / 3.0).abs() < 1.0e-12;
        let end = alone.primitive(1.0);
        claim.told_float("primitive at the end", end);
        claim.so("near 2.333", near(end));

        let averages = [0.0, 5.0, 3.0, -1.0];
        let set = settings(0.0, 0.7, true);
        let curve = build(&set, &FOUR, &averages).expect("builds");
        let record = curve.record(1);
        claim.tags("built at quadraticity 0", &[record.tag], &[0x5000]);
        claim.float("ratio", record.slots[12], 3.0);
        let gained = curve.section_primitive(1, 2.0) - curve.section_primitive(1, 1.0);
        claim.told_float("gained", gained);
        claim.so("near 2.333", near(gained));
    });
}

fn end_sections(report: &mut Report) {
    report.claim("rounding picks the region of an end section", |claim| {
        let mut rng = Rng::new(4);
        let (mut first, mut last) = (BTreeMap::new(), BTreeMap::new());
        let (mut on_the_line, mut fused) = (true, 0);
        let set = settings(0.0, 0.7, false);
        for _ in 0..20_000 {
            let (x, y) = table(&mut rng);
            let curve = build(&set, &x, &y).expect("builds");
            let f = nodes(&set, &x, &y, None).expect("builds");
            if x.len() == 2 {
                continue;
            }
            let end = x.len() - 1;
            let tags = [curve.record(0).tag, curve.record(end - 1).tag];
            // Flat ends are chosen before any region.
            if tags[0] != 0x0200 {
                *first.entry(tags[0]).or_insert(0) += 1;
                let (p, n) = (f[0] - y[1], f[1] - y[1]);
                on_the_line &= (n + 2.0 * p).abs() < 1.0e-13;
                let other = 1.5_f64.mul_add(y[1], -0.5 * f[1]);
                fused += usize::from(!words::same(other, f[0]));
            }
            if tags[1] != 0x0200 {
                *last.entry(tags[1]).or_insert(0) += 1;
                let (p, n) = (f[end - 1] - y[end], f[end] - y[end]);
                on_the_line &= (n + 0.5 * p).abs() < 1.0e-13;
            }
        }
        for (name, tags) in [("first", &first), ("last", &last)] {
            for (tag, &count) in tags {
                claim.told_number(&format!("{name} with tag {tag:04x}"), count);
            }
            claim.so("more than one region occurs", tags.len() > 1);
        }
        claim.so("all lie on the line but for rounding", on_the_line);
        claim.told_number("first nodes that a fused step would change", fused);
        claim.so("some would", fused > 0);
    });
}

fn order_of_sums(report: &mut Report) {
    report.claim("the two quadratics sum in different orders", |claim| {
        let mut rng = Rng::new(5);
        let (mut plain, mut min, mut apart) = (true, true, 0);
        let (mut by_knots, mut by_scaled) = (true, 0);
        for _ in 0..50_000 {
            let x_prev = rng.between(-5.0, 5.0);
            let x_next = x_prev + rng.between(0.1, 2.0);
            let mut rate = || rng.between(0.0, 40.0);
            let args = [x_prev, x_next, rate(), rate(), rate() / 4.0, 0.0];
            let x = rng.between(x_prev, x_next);

            let one = section(&Recipe::Quadratic(Quadratic::Plain(args)));
            let s = one.record().slots;
            let v = (x - s[1]) / s[2];
            plain &= words::same(one.value(x), s[3] * v * v + s[4] * v + s[5]);

            let two = section(&Recipe::Quadratic(Quadratic::Min(args)));
            let t = two.record().slots;
            if two.record().tag == 0x4000 {
                min &= words::same(two.value(x), t[7] + t[6] * v + t[5] * v * v);
                apart += usize::from(!words::same(one.value(x), two.value(x)));
            } else if x < t[2] {
                let share = |length: f64| (x - t[1]) / length / t[12];
                let sum = |v: f64| t[7] + t[6] * v + t[5] * v * v;
                by_knots &= words::same(two.value(x), sum(share(t[4] - t[1])));
                by_scaled += usize::from(!words::same(two.value(x), sum(share(t[11]))));
            }
        }
        claim.so("Quadratic is a v v + b v + c", plain);
        claim.so("QuadraticMin is c + b v + a v v", min);
        claim.told_number("answers that differ between them", apart);
        claim.so("some do", apart > 0);
        claim.so("QuadraticMin divides by x4 - x1", by_knots);
        claim.told_number("the scaled length would change", by_scaled);
        claim.so("some would", by_scaled > 0);
    });
}

fn widest_knots(report: &mut Report) {
    report.claim("knots so wide that d + p is infinite", |claim| {
        let set = settings(0.3, 0.7, true);
        let max = f64::MAX;
        for (averages, node) in [
            ([0.0, 1.0, 3.0], 0.0),
            ([0.0, -1.0, -3.0], -0.0),
            ([0.0, max, max], 0.0),
        ] {
            let seen = nodes(&set, &[-max, 0.0, max], &averages, None).expect("builds");
            claim.float("inner node at -max, 0, max", seen[1], node);
        }
        // A gap that is itself infinite is needed for a NaN.
        let wide = [-max, -max / 2.0, max];
        let seen = nodes(&set, &wide, &[0.0, 1.0, 3.0], None).expect("builds");
        claim.float("inner node at -max, -max/2, max", seen[1], f64::NAN);
    });
}

fn weight_check(report: &mut Report) {
    report.claim(
        "the combination's weight is checked in debug only",
        |claim| {
            let checked = cfg!(debug_assertions);
            for weight in [-0.5, 0.0, 1.0, 1.5, f64::NAN] {
                let stopped = panics(move || combination_accepts(weight));
                claim.so(
                    &format!("weight {weight} stops it: {stopped}, as this profile should"),
                    stopped == checked,
                );
            }
            for weight in [f64::from_bits(1), 0.3, 1.0_f64.next_down()] {
                let stopped = panics(move || combination_accepts(weight));
                claim.so(&format!("weight {weight:?} is taken"), !stopped);
            }
        },
    );
}

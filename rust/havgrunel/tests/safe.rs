//! The safe split as a client meets it: no price below zero, no average lost, and a refusal where that can't be.

mod drawn;

use drawn::table;
use havgrunel::lent::{self, Buffers, Seam, Sheet};
use havgrunel::{ConvexMonotone, ConvexMonotoneInterpolation, Refusal, SLOTS, Section, Split};
use oracle::answers::rng::Rng;
use oracle::words::bits;

const SHARES: [f64; 3] = [0.0, 0.3, 1.0];

fn safe(quadraticity: f64) -> ConvexMonotone {
    ConvexMonotone::new(quadraticity, 0.7, true).with_split(Split::Safe)
}

fn build(method: ConvexMonotone, x: &[f64], y: &[f64]) -> ConvexMonotoneInterpolation {
    method.interpolate(x, y).expect("builds")
}

/// That each section holds its average over its period.
fn keeps_averages(curve: &ConvexMonotoneInterpolation, y: &[f64]) {
    let top = y.iter().skip(1).fold(0.0_f64, |top, &y| top.max(y));
    for (place, record) in curve.records().enumerate() {
        let (from, to) = (curve.knots()[place], curve.knots()[place + 1]);
        let up_to = |x: f64| record.primitive(x).expect("legal");
        let held = (up_to(to) - up_to(from)) / (to - from);
        let due = y[place + 1];
        assert!((held - due).abs() < 1.0e-11 * top, "{held} and {due}");
    }
}

/// The lowest price from one place to another.
fn lowest(curve: &ConvexMonotoneInterpolation, from: f64, to: f64) -> f64 {
    let parts = (0..=1000).map(|part| from + (to - from) * (f64::from(part) / 1000.0));
    let prices = parts.map(|x| curve.value(x).expect("inside"));
    prices.fold(f64::INFINITY, f64::min)
}

fn all(curve: &ConvexMonotoneInterpolation) -> Vec<u64> {
    let tail = curve.tail();
    let records = curve.records().flat_map(|record| {
        let tag = f64::from(record.tag);
        [tag].into_iter().chain(record.slots)
    });
    let nodes = curve.nodes().iter().copied();
    let tail = [tail.value, tail.total, tail.from];
    nodes.chain(records).chain(tail).map(bits).collect()
}

#[test]
fn a_month_that_traded_at_zero_is_zero() {
    let x = [0.0, 31.0, 59.0, 90.0];
    for zero in [0.0, -0.0] {
        let y = [0.0, 40.0, zero, 25.0];
        for quadraticity in SHARES {
            let curve = build(safe(quadraticity), &x, &y);
            for at in [31.0, 31.0_f64.next_up(), 45.0, 59.0_f64.next_down()] {
                assert_eq!(curve.value(at).map(f64::to_bits), Ok(0), "at {at}");
            }
            keeps_averages(&curve, &y);
            assert!(lowest(&curve, 0.0, 90.0) >= 0.0);
        }
    }
}

/// The first node would be below zero and is put at zero. Beside it the original's test fails by rounding, and its curve dips.
#[test]
fn a_first_month_that_starts_at_zero_stays_above_it() {
    let (x, y) = ([0.0, 28.0, 56.0, 85.0], [0.0, 0.62, 59.03, 47.69]);
    let safe = safe(0.3);
    for split in [Split::Original, Split::Careful] {
        let curve = build(safe.with_split(split), &x, &y);
        assert!(lowest(&curve, 0.0, 28.0) < -0.1, "{split:?}");
    }
    let curve = build(safe, &x, &y);
    assert_eq!(curve.nodes()[0], 0.0);
    assert!(lowest(&curve, 0.0, 85.0) >= -1.0e-12 * 59.03);
    keeps_averages(&curve, &y);
}

#[test]
fn an_average_below_zero_is_refused() {
    let x = [0.0, 1.0, 2.0, 3.0];
    for place in 1..4 {
        let mut y = [0.0, 5.0, 3.0, 1.0];
        y[place] = -f64::from_bits(1);
        let method = safe(0.3);
        let refused = Some(Refusal::AverageBelowZero);
        assert_eq!(method.interpolate(&x, &y).err(), refused);
        assert_eq!(method.interpolate_in_sheets(&x, &y, &[1]).err(), refused);
        let grown = method.local_interpolate(&x, &y, 3, None, 4);
        assert_eq!(grown.err(), refused);
        for other in [Split::Original, Split::Careful] {
            assert!(method.with_split(other).interpolate(&x, &y).is_ok());
        }
        // Without positivity any average is kept.
        let free = ConvexMonotone::new(0.3, 0.7, false).with_split(Split::Safe);
        assert!(free.interpolate(&x, &y).is_ok());
    }
    // The first is not read, and -0.0 is not below 0.
    let curve = build(safe(0.3), &x, &[-5.0, 5.0, -0.0, 1.0]);
    assert_eq!(curve.value(1.5), Ok(0.0));
    let refusal = Refusal::AverageBelowZero;
    assert_eq!(refusal.number(), 29);
    assert!(refusal.to_string().contains("below 0"));
    assert_eq!(Refusal::SplitUnknown.number(), 30);
}

/// What is refused earlier stays so, and too many points come after.
#[test]
fn the_refusal_has_its_place_in_the_order() {
    let refused = |x: &[f64], y: &[f64]| safe(0.3).interpolate(x, y).map_err(Refusal::number);
    let number = |x: &[f64], y: &[f64]| refused(x, y).err().unwrap_or(0);
    assert_eq!(number(&[0.0, 0.0], &[0.0, -1.0]), 7);
    assert_eq!(number(&[0.0, f64::NAN], &[0.0, -1.0]), 5);
    assert_eq!(number(&[0.0, 1.0], &[f64::NAN, -1.0]), 6);
    let days: Vec<f64> = (0..5000).map(f64::from).collect();
    assert_eq!(number(&days, &days), 10);
    let below: Vec<f64> = days.iter().map(|day| -day).collect();
    assert_eq!(number(&days, &below), 29);
}

#[test]
fn without_positivity_it_is_the_original() {
    let mut rng = Rng::new(0x0ff5);
    for _ in 0..200 {
        let (x, mut y) = table(&mut rng, 2, 12);
        y[1] = rng.pick(&[0.0, -0.0, -3.0, y[1]]);
        let method = ConvexMonotone::new(rng.unit(), rng.unit(), false);
        let other = build(method.with_split(Split::Safe), &x, &y);
        assert_eq!(all(&build(method, &x, &y)), all(&other));
    }
}

#[test]
fn next_to_nothing_beside_its_neighbours_is_level() {
    let (x, y) = ([0.0, 30.0, 60.0, 90.0], [0.0, 60.0, 1.0e-30, 60.0]);
    for quadraticity in SHARES {
        let curve = build(safe(quadraticity), &x, &y);
        for at in [30.0, 30.0_f64.next_up(), 41.0, 60.0_f64.next_down()] {
            assert_eq!(curve.value(at), Ok(1.0e-30), "at {at}");
        }
        keeps_averages(&curve, &y);
    }
}

#[test]
fn single_sections_by_the_safe_rule() {
    // From 4 to 1 the average 1 touches zero.
    let at = |average: f64| Section::quadratic_min_safe(0.0, 1.0, 4.0, 1.0, average, 0.0);
    assert_eq!((at(0.5).tag, at(3.0).tag), (0x5000, 0x4000));
    assert_eq!(
        at(0.5),
        Section::quadratic_min(0.0, 1.0, 4.0, 1.0, 0.5, 0.0)
    );
    let level = at(1.0e-13);
    assert_eq!((level.tag, level.value(0.25)), (0x4000, Ok(1.0e-13)));
    assert_eq!(level.f_next(), Ok(1.0e-13));

    let at = |average: f64| {
        let rise = 3.0 - average;
        Section::convex_monotone4_min_safe(0.0, 1.0, rise, rise, average, 0.5, 0.0)
    };
    assert_eq!((at(0.5).tag, at(2.0).tag), (0x0680, 0x0600));
    let level = at(1.0e-13);
    assert_eq!((level.tag, level.value(0.25)), (0x0600, Ok(1.0e-13)));
    assert_eq!(level.primitive(1.0), Ok(1.0e-13));
}

/// Sheets of a safe table give the safe whole.
#[test]
fn safe_sheets_are_the_safe_whole() {
    let mut rng = Rng::new(0x5afe);
    for _ in 0..300 {
        let (x, mut y) = table(&mut rng, 3, 20);
        for average in &mut y {
            let low = *average * 1.0e-14;
            *average = rng.pick(&[average.abs(), average.abs(), 0.0, low.abs()]);
        }
        let method = safe(rng.pick(&SHARES));
        let cuts: Vec<usize> = (1..x.len() - 1).filter(|_| rng.chance(3)).collect();
        let at_once = method.interpolate_in_sheets(&x, &y, &cuts).expect("builds");
        assert_eq!(all(&at_once), all(&build(method, &x, &y)));
    }
}

/// A sheet goes on from the node that it is given, whatever number that is, as a build goes on from a seam.
#[test]
fn a_sheet_from_any_node_is_a_build_from_a_seam() {
    let mut rng = Rng::new(0x9a7);
    let odd = [f64::NAN, f64::INFINITY, f64::NEG_INFINITY, -1.0, 0.0, -0.0];
    for turn in 0..400 {
        let (x, mut y) = table(&mut rng, 4, 9);
        for average in &mut y {
            *average = rng.pick(&[average.abs(), average.abs(), 0.0, 1.0e-30]);
        }
        let (last, method) = (x.len() - 1, safe(rng.pick(&SHARES)));
        let count = 1 + rng.below(last as u64 - 1) as usize;
        let node = match turn % 2 {
            0 => rng.pick(&odd),
            _ => rng.between(0.0, 40.0),
        };
        let mut room = [0; 2].map(|_| {
            let slots = vec![0.0; SLOTS * last];
            (vec![0.0; x.len()], vec![0; last], slots)
        });
        let [whole, part] =
            room.each_mut()
                .map(|(nodes, tags, slots)| Buffers { nodes, tags, slots });
        let seam = Some(Seam { count, node });
        let curve = lent::build(&x, &y, method, false, seam, whole).expect("builds");
        let sheet = Sheet {
            left: Some(node),
            right: None,
            start: (1..=count).fold(0.0, |total, i| total + y[i] * (x[i] - x[i - 1])),
            place: count,
        };
        let end = method.sheet(&x[count..], &y[count..], sheet, part);
        let tail = end.expect("is accepted").tail.expect("is the last");
        assert_eq!(bits(tail.value), bits(curve.tail.value));
        let [whole, part] = room.map(|(nodes, tags, slots)| {
            let slots = slots[SLOTS * count..].iter().copied();
            let all = nodes[count..].iter().copied().chain(slots).map(bits);
            (tags[count..].to_vec(), all.collect::<Vec<_>>())
        });
        assert_eq!(part, whole, "node {node:?}");
    }
}

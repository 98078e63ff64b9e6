//! The rules of when a parabola is split: the original's, which old callers get unasked, the careful one and the safe one.

mod drawn;

use drawn::table;
use havgrunel::lent::{self, Buffers, Seam, Sheet};
use havgrunel::{
    ConvexMonotone, ConvexMonotoneInterpolation, Interpolator, Record, SLOTS, Section, Split,
    inner_node,
};
use oracle::answers::rng::Rng;
use oracle::words::bits;

/// Falling months: by the original's rule the first two are split, by the careful one none.
const KNOTS: [f64; 4] = [0.0, 1.0, 2.0, 3.0];
const AVERAGES: [f64; 4] = [0.0, 5.0, 3.0, 1.0];

const SPLIT: u16 = 0x1000;

fn falling() -> ConvexMonotone {
    ConvexMonotone::new(0.0, 0.7, true)
}

fn careful() -> ConvexMonotone {
    falling().with_split(Split::Careful)
}

fn build(method: ConvexMonotone) -> ConvexMonotoneInterpolation {
    method.interpolate(&KNOTS, &AVERAGES).expect("builds")
}

/// What each section holds of its period.
fn held(curve: &ConvexMonotoneInterpolation) -> Vec<f64> {
    let knots = curve.knots().windows(2);
    let total = |record: &Record, x: f64| record.primitive(x).expect("legal");
    let sections = curve.records().zip(knots);
    sections
        .map(|(record, ends)| total(&record, ends[1]) - total(&record, ends[0]))
        .collect()
}

fn tags(curve: &ConvexMonotoneInterpolation) -> Vec<u16> {
    curve.records().map(|record| record.tag).collect()
}

/// All that a curve is, by bits: its nodes, its records and its tail.
type All = (Vec<u64>, Vec<(u16, [u64; SLOTS])>, [u64; 3]);

fn all(curve: &ConvexMonotoneInterpolation) -> All {
    let tail = curve.tail();
    (
        curve.nodes().iter().copied().map(bits).collect(),
        curve
            .records()
            .map(|r| (r.tag, r.slots.map(bits)))
            .collect(),
        [tail.value, tail.total, tail.from].map(bits),
    )
}

#[test]
fn old_callers_get_the_originals_rule() {
    assert_eq!(Split::default(), Split::Original);
    for method in [falling(), ConvexMonotone::default(), ConvexMonotone::gas()] {
        assert_eq!(method, method.with_split(Split::Original));
        assert_ne!(method, method.with_split(Split::Careful));
        let there_and_back = method.with_split(Split::Careful);
        assert_eq!(method, there_and_back.with_split(Split::Original));
        assert!(format!("{method:?}").contains("Original"));
    }
    let curve = build(falling());
    let (x, y) = (KNOTS.to_vec(), AVERAGES.to_vec());
    let by_new = ConvexMonotoneInterpolation::new(x, y, 0.0, 0.7, true).expect("builds");
    assert_eq!(all(&by_new), all(&curve));
    assert_eq!(tags(&curve), [0x5000, 0x5000, 0x4000]);
}

#[test]
fn p6_by_both_rules() {
    let original = Section::quadratic_min(0.0, 1.0, 4.0, 1.0, 3.0, 0.0);
    assert_eq!((original.tag, original.value(0.75)), (0x5000, Ok(1.5625)));
    let careful = Section::quadratic_min_careful(0.0, 1.0, 4.0, 1.0, 3.0, 0.0);
    assert_eq!((careful.tag, careful.value(0.75)), (0x4000, Ok(2.3125)));
    let total = original.primitive(1.0).expect("legal");
    assert!((total - 7.0 / 3.0).abs() < 1.0e-15, "{total}");
    assert_eq!(careful.primitive(1.0), Ok(3.0));
    // What the careful rule leaves whole has the parabola's own numbers.
    let plain = Section::quadratic(0.0, 1.0, 4.0, 1.0, 3.0, 0.0);
    assert_eq!(careful.fields[5..8], plain.fields[3..6]);
    // A ratio of 0.5 is split by both.
    let low = [0.0, 1.0, 4.0, 1.0, 0.5, 0.0];
    let [a, b, c, d, e, f] = low;
    let split = Section::quadratic_min_careful(a, b, c, d, e, f);
    assert_eq!(split, Section::quadratic_min(a, b, c, d, e, f));
    assert_eq!(split.tag, 0x5000);
}

/// Ends and an average whose ratio is told; the original splits each.
#[test]
fn the_edges_of_the_ratio() {
    let huge = 3.0e152;
    for (f_prev, f_next, average, ratio, split) in [
        (4.0, 1.0, 0.5, 0.5, true),
        // The parabola that touches zero; its discriminant is above 0 by rounding alone.
        (1.0, 3.0, 0.7559830641437075, 1.0, true),
        (4.0, 1.0, f64::from_bits(1), f64::from_bits(1), true),
        (4.0, 1.0, 0.0, 0.0, false),
        (4.0, 1.0, -0.0, -0.0, false),
        (4.0, 1.0, -1.0, -1.0, false),
        (-4.0, -1.0, -3.5, 1.5, false),
        (0.0, 3.0, 1.0_f64.next_up(), 1.0_f64.next_up(), false),
        (0.0, 3.0, 1.0_f64.next_down(), 1.0_f64.next_down(), true),
        (0.0, 0.0, 2.0, f64::INFINITY, false),
        (-0.0, -0.0, 2.0, f64::NEG_INFINITY, false),
        (huge, huge, f64::INFINITY, f64::NAN, false),
    ] {
        let told = format!("ends {f_prev:?} and {f_next:?}, average {average:?}");
        let original = Section::quadratic_min(0.0, 1.0, f_prev, f_next, average, 0.0);
        assert_eq!(original.tag, 0x5000, "{told}");
        assert_eq!(bits(original.fields[12]), bits(ratio), "{told}");
        let careful = Section::quadratic_min_careful(0.0, 1.0, f_prev, f_next, average, 0.0);
        assert_eq!(careful.tag & SPLIT != 0, split, "{told}");
        if split {
            assert_eq!(careful, original, "{told}");
        } else {
            assert_eq!(careful.fields[12], 1.0, "{told}");
        }
    }
}

#[test]
fn a_falling_month_keeps_its_average_by_the_careful_rule() {
    let (original, careful) = (build(falling()), build(careful()));
    assert_eq!(tags(&careful), [0x4000; 3]);
    assert_eq!(held(&careful), [5.0, 3.0, 1.0]);
    let lost = held(&original);
    assert!(lost[0] < 4.0 && lost[1] < 2.4 && lost[2] == 1.0, "{lost:?}");
    assert_eq!(original.nodes(), careful.nodes());
    assert_eq!(original.record(2), careful.record(2));
    let tails = [original.tail(), careful.tail()];
    assert_eq!(tails[0], tails[1]);
}

#[test]
fn generic_code_takes_a_careful_method() {
    fn middle<I: Interpolator>(method: &I) -> f64 {
        use havgrunel::Interpolation;
        let curve = method.interpolate(&KNOTS, &AVERAGES).expect("builds");
        curve.value(1.5).expect("inside")
    }
    assert_eq!(middle(&careful()), 3.0);
    assert!(middle(&falling()) < 3.0);
}

#[test]
fn without_positivity_the_rules_are_one() {
    let mut rng = Rng::new(0x0ff);
    for _ in 0..200 {
        let (x, y) = table(&mut rng, 2, 12);
        let method = ConvexMonotone::new(rng.unit(), rng.unit(), false);
        let one = method.interpolate(&x, &y).expect("builds");
        let other = method.with_split(Split::Careful).interpolate(&x, &y);
        assert_eq!(all(&one), all(&other.expect("builds")));
    }
}

/// Settings that split often, and in falling months too.
fn method(rng: &mut Rng) -> ConvexMonotone {
    let quadraticity = rng.pick(&[0.0, 0.0, 0.3, 1.0]);
    ConvexMonotone::new(quadraticity, rng.unit(), true).with_split(Split::Careful)
}

#[test]
fn careful_sheets_are_the_careful_whole() {
    let mut rng = Rng::new(0xca5e);
    let mut differ = 0;
    for _ in 0..400 {
        let (x, y) = table(&mut rng, 3, 20);
        let method = method(&mut rng);
        let last = x.len() - 1;
        let cuts: Vec<usize> = (1..last).filter(|_| rng.chance(3)).collect();
        let whole = method.interpolate(&x, &y).expect("builds");
        let at_once = method.interpolate_in_sheets(&x, &y, &cuts).expect("builds");
        assert_eq!(all(&at_once), all(&whole));
        let original = method.with_split(Split::Original).interpolate(&x, &y);
        differ += u32::from(tags(&original.expect("builds")) != tags(&whole));

        // One by one, from the last to the first.
        let (mut nodes, mut tags) = (vec![0.0; x.len()], vec![0; last]);
        let mut slots = vec![0.0; SLOTS * last];
        let ends: Vec<usize> = [0].into_iter().chain(cuts).chain([last]).collect();
        for ends in ends.windows(2).rev().filter(|_| ends.len() > 2) {
            let (from, to) = (ends[0], ends[1]);
            let node = |i: usize| {
                (0 < i && i < last).then(|| inner_node(x[i - 1], x[i], x[i + 1], y[i], y[i + 1]))
            };
            let sheet = Sheet {
                left: node(from),
                right: node(to),
                start: (1..=from).fold(0.0, |total, i| total + y[i] * (x[i] - x[i - 1])),
                place: from,
            };
            let buffers = Buffers {
                nodes: &mut nodes,
                tags: &mut tags,
                slots: &mut slots,
            };
            let end = method.sheet(&x[from..=to], &y[from..=to], sheet, buffers);
            assert_eq!(end.expect("is accepted").tail.is_some(), to == last);
        }
        if ends.len() > 2 {
            let (due_nodes, due_records, _) = all(&whole);
            assert_eq!(nodes.into_iter().map(bits).collect::<Vec<_>>(), due_nodes);
            for (place, (tag, due)) in due_records.into_iter().enumerate() {
                let mine = slots[SLOTS * place..][..SLOTS].iter().copied().map(bits);
                assert!(tags[place] == tag && mine.eq(due), "section {place}");
            }
        }
    }
    assert!(differ > 40, "{differ} tables are of two shapes");
}

#[test]
fn a_careful_curve_grows_as_a_seam_by_hand_has_it() {
    let mut rng = Rng::new(0x9a0);
    let mut differ = 0;
    for _ in 0..100 {
        let (x, y) = table(&mut rng, 4, 8);
        let (careful, size) = (method(&mut rng), x.len());
        let other = careful.with_split(Split::Original);
        let mut grown: Option<ConvexMonotoneInterpolation> = None;
        let mut others: Option<ConvexMonotoneInterpolation> = None;
        for points in 3..=size {
            let (x, y) = (&x[..points], &y[..points]);
            let next = careful.local_interpolate(x, y, 2, grown.as_ref(), size);
            let next = next.expect("grows");
            // From a curve of the other rule it goes on alike.
            let crossed = careful.local_interpolate(x, y, 2, others.as_ref(), size);
            assert_eq!(all(&crossed.expect("grows")), all(&next));

            let seam = grown.as_ref().map(|curve| {
                let count = curve.sections() - 1;
                let end = curve.record(count - 1).expect("there");
                let node = end.f_next().expect("legal");
                Seam { count, node }
            });
            let (mut nodes, mut tags) = (vec![0.0; points], vec![0; points - 1]);
            let mut slots = vec![0.0; SLOTS * (points - 1)];
            let buffers = Buffers {
                nodes: &mut nodes,
                tags: &mut tags,
                slots: &mut slots,
            };
            let hold = points != size;
            lent::build(x, y, careful, hold, seam, buffers).expect("builds");
            assert!(next.records().map(|record| record.tag).eq(tags));
            let mine = next.records().flat_map(|record| record.slots);
            assert!(mine.map(bits).eq(slots.into_iter().map(bits)));

            others = other.local_interpolate(x, y, 2, others.as_ref(), size).ok();
            let others = others.as_ref().expect("grows");
            differ += u32::from(self::tags(others) != self::tags(&next));
            grown = Some(next);
        }
    }
    assert!(differ > 40, "{differ} steps are of two shapes");
}

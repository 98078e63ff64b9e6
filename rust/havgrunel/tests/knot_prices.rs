//! The three numbers of its period in the record of every section: its price at the left knot and at the right one, which are what the section
//! itself answers there, and the running total after it. Compared bit for bit, any NaN matching any NaN.

mod drawn;

use drawn::table;
use havgrunel::lent::{self, Buffers};
use havgrunel::{ConvexMonotone, ConvexMonotoneInterpolation, FIELDS, Record, SLOTS, Split};
use oracle::answers::rng::Rng;
use oracle::words::bits;

const KNOTS: [f64; 3] = [0.0, 1.0, 2.0];
const AVERAGES: [f64; 3] = [0.0, 1.0, 3.0];

fn told(record: &Record) -> [f64; 3] {
    [record.left_price(), record.right_price(), record.total()]
}

/// That each record of a curve over these averages tells its section's own prices and the sum of averages times lengths up to its end.
fn tells_its_knots(records: impl Iterator<Item = Record>, knots: &[f64], averages: &[f64]) {
    let mut total = 0.0;
    let mut count = 0;
    for (place, record) in records.enumerate() {
        let (left, right) = (knots[place], knots[place + 1]);
        total += averages[place + 1] * (right - left);
        let price = |x: f64| record.answers(x).expect("legal").value.number;
        let due = [price(left), price(right), total];
        assert_eq!(told(&record).map(bits), due.map(bits), "section {place}");
        count += 1;
    }
    assert_eq!(count, knots.len() - 1);
}

/// The records of a table built with its last period held.
fn held(method: ConvexMonotone, knots: &[f64], averages: &[f64]) -> Vec<Record> {
    let sections = knots.len() - 1;
    let (mut nodes, mut tags) = (vec![0.0; knots.len()], vec![0; sections]);
    let mut slots = vec![0.0; SLOTS * sections];
    let buffers = Buffers {
        nodes: &mut nodes,
        tags: &mut tags,
        slots: &mut slots,
    };
    lent::build(knots, averages, method, true, None, buffers).expect("builds");
    let record = |(number, &tag): (usize, &u16)| {
        let slots = lent::record(knots.len(), &slots, number).expect("there");
        Record { tag, slots }
    };
    tags.iter().enumerate().map(record).collect()
}

#[test]
fn shaped_sections() {
    let method = ConvexMonotone::new(0.0, 1.0, false);
    let curve = method.interpolate(&KNOTS, &AVERAGES).expect("builds");
    let all: Vec<[f64; 3]> = curve.records().map(|record| told(&record)).collect();
    assert_eq!(all, [[0.5, 2.0, 1.0], [2.0, 3.5, 4.0]]);
}

/// Its price is its average at both ends, and not that of the section before it at the knot between them.
#[test]
fn a_held_last_section() {
    let records = held(ConvexMonotone::new(0.0, 1.0, false), &KNOTS, &AVERAGES);
    let all: Vec<[f64; 3]> = records.iter().map(told).collect();
    assert_eq!(all, [[0.5, 2.0, 1.0], [3.0, 3.0, 4.0]]);
}

/// The total is the one at the last knot, where the tail of two points starts at the first.
#[test]
fn two_points() {
    let (x, y) = ([1.0, 3.5], [7.0, 2.0]);
    let curve = ConvexMonotone::default().interpolate(&x, &y);
    let curve = curve.expect("builds");
    assert_eq!(told(&curve.record(0).expect("there")), [2.0, 2.0, 5.0]);
    assert_eq!((curve.tail().total, curve.tail().from), (0.0, 1.0));
    let records = held(ConvexMonotone::default(), &x, &y);
    assert_eq!(told(&records[0]), [2.0, 2.0, 5.0]);
}

/// A period that traded at 0 has no price at its left knot by the original's rule, and 0 by the safe one.
#[test]
fn a_price_that_is_no_number_is_told_as_it_is() {
    let (x, y) = ([0.0, 1.0, 2.0, 3.0], [0.0, 2.0, 0.0, 2.0]);
    let method = ConvexMonotone::new(0.0, 0.7, true);
    let curve = method.interpolate(&x, &y).expect("builds");
    let [left, _, total] = told(&curve.record(1).expect("there"));
    assert!(left.is_nan());
    assert_eq!(total, 2.0);
    tells_its_knots(curve.records(), &x, &y);
    let safe = method.with_split(Split::Safe).interpolate(&x, &y);
    let zero = safe.expect("builds").record(1).expect("there");
    assert_eq!(told(&zero).map(bits), [0.0, 0.0, 2.0].map(bits));
}

#[test]
fn a_total_may_be_infinite() {
    let (x, y) = ([0.0, 1.0e300, 2.0e300], [0.0, 1.0e300, 1.0]);
    let curve = ConvexMonotone::default().interpolate(&x, &y);
    let curve = curve.expect("builds");
    assert!(
        curve
            .records()
            .all(|record| record.total() == f64::INFINITY)
    );
    tells_its_knots(curve.records(), &x, &y);
}

fn method(rng: &mut Rng) -> ConvexMonotone {
    let quadraticity = [0.0, 1.0, rng.unit()][rng.below(3) as usize];
    let method = ConvexMonotone::new(quadraticity, rng.unit(), rng.chance(2));
    method.with_split([Split::Original, Split::Careful, Split::Safe][rng.below(3) as usize])
}

/// Whole, held, in sheets and by growth, in each mode. Averages below zero, which the safe mode refuses, are turned.
#[test]
fn every_way_to_a_curve_tells_its_knots() {
    let mut rng = Rng::new(0x6b6e_6f74);
    let mut grown_curves = 0;
    for _ in 0..1_000 {
        let (x, mut y) = table(&mut rng, 2, 12);
        y.iter_mut().for_each(|average| *average = average.abs());
        let method = method(&mut rng);
        let whole = method.interpolate(&x, &y).expect("builds");
        tells_its_knots(whole.records(), &x, &y);
        tells_its_knots(held(method, &x, &y).into_iter(), &x, &y);
        let cuts: Vec<usize> = (1..x.len() - 1).filter(|_| rng.chance(3)).collect();
        let sheets = method.interpolate_in_sheets(&x, &y, &cuts).expect("builds");
        tells_its_knots(sheets.records(), &x, &y);
        let window = 1 + rng.below(x.len() as u64 - 1) as usize;
        let mut grown: Option<ConvexMonotoneInterpolation> = None;
        for points in window + 1..=x.len() {
            let (x, y, last) = (&x[..points], &y[..points], x.len());
            let next = method.local_interpolate(x, y, window, grown.as_ref(), last);
            let next = next.expect("grows");
            tells_its_knots(next.records(), x, y);
            grown_curves += 1;
            grown = Some(next);
        }
    }
    assert!(grown_curves > 2_000, "{grown_curves} grown curves");
}

/// A record and its section by itself answer alike, and the section has the first of the record's numbers.
#[test]
fn the_section_of_a_record() {
    let curve = ConvexMonotone::gas().interpolate(&KNOTS, &AVERAGES);
    for record in curve.expect("builds").records() {
        let section = record.section();
        assert_eq!(section.tag, record.tag);
        assert_eq!(section.fields, record.slots[..FIELDS]);
        for x in [0.0, 0.5, 1.0, 1.5, 2.0] {
            assert_eq!(record.answers(x), section.answers(x));
            let answers = section.answers(x).expect("legal");
            assert_eq!(record.value(x), answers.value.told());
            assert_eq!(record.primitive(x), answers.primitive.told());
            assert_eq!(record.f_next(), Ok(answers.f_next));
        }
    }
}

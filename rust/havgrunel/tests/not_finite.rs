//! Answers that are not finite are refused by 21, after all else: where they come from, and what is told beside them.

#[allow(dead_code)]
mod asked;

use asked::OLD;
use havgrunel::{ConvexMonotone, ConvexMonotoneInterpolation, ManyRefused, Refusal, Split};
use havgrunel::{FIELDS, Section, ffi, lent};

const NAN: f64 = f64::NAN;
const FAR: f64 = 1.0e308;
const NOT_FINITE: Refusal = Refusal::NotFinite;

fn at(refusal: Refusal, query: usize) -> Result<(), ManyRefused> {
    let query = Some(query);
    Err(ManyRefused { refusal, query })
}

/// Of three months the second traded at 0.
fn at_zero(method: ConvexMonotone) -> ConvexMonotoneInterpolation {
    let (x, y) = ([0.0, 1.0, 2.0, 3.0], [9.0, 2.0, 0.0, 2.0]);
    method.interpolate_with_column(&x, &y).expect("builds")
}

/// Under positivity such a month has neither a price nor a total at its first knot. The record and the column keep what the formulas gave
/// there, and a strip that starts or ends there is refused; all else is told.
#[test]
fn a_month_that_traded_at_zero() {
    let curve = at_zero(ConvexMonotone::gas());
    let told = |x: f64| (curve.value(x), curve.primitive(x));
    assert_eq!(told(1.0), (Err(NOT_FINITE), Err(NOT_FINITE)));
    assert_eq!(told(0.5), (Ok(2.125), Ok(1.1875)));
    assert_eq!(told(1.0_f64.next_up()), (Ok(0.0), Ok(2.0)));
    assert_eq!(told(2.0), (Ok(1.0), Ok(2.0)));
    assert_eq!(curve.strip(0.0, 1.0), Err(NOT_FINITE));
    assert_eq!(curve.strip(1.0, 2.0), Err(NOT_FINITE));
    assert_eq!(curve.strip(0.5, 1.5), Ok(0.8125));
    assert_eq!(curve.strip_between(0, 1), Err(NOT_FINITE));
    assert_eq!(curve.strip_between(0, 2), Ok(1.0));
    assert_eq!(curve.total_at(1), Err(NOT_FINITE));
    assert_eq!(curve.total_at(2), Ok(2.0));
    assert!(curve.column().is_some_and(|column| column[1].is_nan()));
    let record = curve.record(1).expect("there");
    assert!(record.left_price().is_nan() && record.total() == 2.0);
    let answers = record.answers(1.0).expect("legal");
    assert!(!answers.value.finite && answers.value.number.is_nan());
    assert_eq!(record.value(1.0), Err(NOT_FINITE));
    assert_eq!(record.primitive(1.0), Err(NOT_FINITE));
    assert_eq!(record.value(1.5), Ok(0.0));

    let mut answers = [OLD; 4];
    assert_eq!(
        curve.values(&[0.5, 1.5, 1.0, NAN], &mut answers),
        at(NOT_FINITE, 2)
    );
    assert_eq!(
        curve.primitives(&[1.0, 1.0], &mut answers),
        at(NOT_FINITE, 0)
    );
    let (starts, ends) = ([0.0, 0.5, 1.0], [0.5, 1.0, 2.0]);
    assert_eq!(
        curve.strips(&starts, &ends, &mut answers),
        at(NOT_FINITE, 1)
    );
    assert_eq!(curve.strip_run(&[0.0, 0.5, 1.5, 3.0], &mut answers), Ok(()));
    assert_eq!(answers[3], OLD);
    let mut answers = [OLD; 4];
    assert_eq!(
        curve.strip_run(&[0.0, 0.5, 1.0, 3.0], &mut answers),
        at(NOT_FINITE, 1)
    );
    assert_eq!(answers, [OLD; 4]);

    // At quadraticity 1 it has a total there, and by the safe rule it has both.
    let parabolas = at_zero(ConvexMonotone::new(1.0, 0.7, true));
    assert_eq!(parabolas.value(1.0), Err(NOT_FINITE));
    assert_eq!(parabolas.primitive(1.0), Ok(2.0));
    assert_eq!(parabolas.strip(0.0, 1.0), Ok(2.0));
    let safe = at_zero(ConvexMonotone::gas().with_split(Split::Safe));
    assert_eq!((safe.value(1.0), safe.primitive(1.0)), (Ok(0.0), Ok(2.0)));
    assert_eq!(safe.total_at(1), Ok(2.0));
}

/// Monotonicity 1 beside two months at one price: the first of them starts from a point without length.
#[test]
fn equal_neighbours_at_monotonicity_one() {
    let (x, y) = ([0.0, 1.0, 2.0, 3.0, 4.0], [9.0, 1.0, 2.0, 2.0, 3.0]);
    for (quadraticity, positive) in [(0.0, false), (0.3, true)] {
        let method = ConvexMonotone::new(quadraticity, 1.0, positive);
        let curve = method.interpolate_with_column(&x, &y).expect("builds");
        assert_eq!(curve.value(1.0), Err(NOT_FINITE));
        assert_eq!(curve.primitive(1.0), Err(NOT_FINITE));
        assert_eq!(curve.total_at(1), Err(NOT_FINITE));
        assert_eq!(curve.strip_between(1, 4), Err(NOT_FINITE));
        assert!(
            [0.0, 0.5, 1.5, 2.0, 3.0, 4.0]
                .into_iter()
                .all(|x| curve.value(x).is_ok())
        );
    }
    let curve = ConvexMonotone::new(1.0, 1.0, true)
        .interpolate(&x, &y)
        .expect("builds");
    assert_eq!((curve.value(1.0), curve.primitive(1.0)), (Ok(1.5), Ok(1.0)));
}

/// Far out the price stays and the total does not. A strip is refused for its own number, not for its two totals: these may be finite and
/// it not.
#[test]
fn huge_numbers() {
    let huge = |average: f64| {
        let curve = ConvexMonotone::default().interpolate(&[0.0, 1.0], &[0.0, average]);
        curve.expect("builds").with_extrapolation(true)
    };
    let curve = huge(1.7e308);
    assert_eq!(
        (curve.primitive(-1.0), curve.primitive(1.0)),
        (Ok(-1.7e308), Ok(1.7e308))
    );
    assert_eq!(curve.strip(-1.0, 1.0), Err(NOT_FINITE));
    assert_eq!(curve.strip(0.0, 1.0), Ok(1.7e308));
    let mut answers = [OLD; 3];
    assert_eq!(
        curve.strip_run(&[-1.0, 0.0, 1.0, 2.0], &mut answers),
        at(NOT_FINITE, 2)
    );
    assert_eq!(
        curve.strips(&[0.0, -1.0], &[1.0, 1.0], &mut answers),
        at(NOT_FINITE, 1)
    );
    assert_eq!(answers, [OLD; 3]);
    let column = [-1.7e308, 1.7e308];
    assert_eq!(
        lent::strip_between(&[0.0, 1.0], &column, 0, 1),
        Err(NOT_FINITE)
    );
    assert_eq!(
        lent::strip_between(&[0.0, 1.0], &column.map(|c| c / 2.0), 0, 1),
        Ok(1.7e308)
    );
    assert_eq!(lent::column_entry(&column, 0), Ok(-1.7e308));
    for far in [FAR, f64::INFINITY, -FAR, f64::NEG_INFINITY] {
        let curve = huge(1.0e300);
        assert_eq!(
            (curve.value(far), curve.primitive(far)),
            (Ok(1.0e300), Err(NOT_FINITE))
        );
    }
    assert_eq!(huge(1.0).primitive(FAR), Ok(FAR));
    // A strip without end holds nothing in the end where its totals are finite, and has no price where one is not.
    assert_eq!(huge(0.0).strip(0.0, FAR), Ok(0.0));
    assert_eq!(huge(1.0).strip(0.0, f64::INFINITY), Err(NOT_FINITE));
}

/// Every other refusal of a call comes before this one.
#[test]
fn all_else_comes_first() {
    let curve = at_zero(ConvexMonotone::gas());
    for (a, b, number) in [
        (1.0, NAN, 12),
        (NAN, 1.0, 12),
        (1.0, 9.0, 13),
        (9.0, 1.0, 13),
        (1.0, 1.0, 18),
        (1.0, 0.5, 18),
        (0.5, 1.0, 21),
    ] {
        let due = Err(number);
        assert_eq!(
            curve.strip(a, b).map_err(Refusal::number),
            due,
            "from {a} to {b}"
        );
        let many = curve.strips(&[0.25, a], &[0.5, b], &mut [OLD; 2]);
        assert_eq!(
            many.map_err(|many| (many.refusal.number(), many.query)),
            Err((number, Some(1)))
        );
    }
    assert_eq!(curve.strip_between(1, 1), Err(Refusal::StripEndsNotRising));
    assert_eq!(curve.strip_between(1, 4), Err(Refusal::StripEndsNotRising));
    let none = [NAN; 2];
    let between = |knots: &[f64], column: &[f64]| lent::strip_between(knots, column, 0, 1);
    assert_eq!(
        between(&[0.0, 1.0], &none[..1]),
        Err(Refusal::BufferTooShort)
    );
    assert_eq!(between(&[1.0, 1.0], &none), Err(Refusal::KnotsNotRising));
    assert_eq!(between(&[0.0, 1.0], &none), Err(NOT_FINITE));
    assert_eq!(lent::column_entry(&none, 2), Err(Refusal::BufferTooShort));
    assert_eq!(ffi::column_entry(&none, 0, &mut []), 11);

    // All that this record answers is not finite, and so it is of no account once its tag is not legal.
    let (x, y) = ([0.0, 1.0, 2.0], [0.0, f64::MAX, -f64::MAX]);
    let curve = ConvexMonotone::default()
        .interpolate(&x, &y)
        .expect("builds");
    let (mut tags, mut slots) = (Vec::new(), Vec::new());
    curve
        .records()
        .for_each(|record| (tags.push(record.tag), slots.extend(record.slots)).1);
    let mut lent = lent::Curve {
        sections: 2,
        held: false,
        extrapolates: true,
        tail: curve.tail(),
    };
    let ask = |tags: &[u16], lent: &lent::Curve, q: f64| lent::value(&x, lent, tags, &slots, q);
    assert_eq!(ask(&tags, &lent, 0.5), Err(NOT_FINITE));
    assert_eq!(ask(&tags, &lent, NAN), Err(Refusal::QueryNotANumber));
    assert_eq!(ask(&[0, 0], &lent, 0.5), Err(Refusal::RecordNotLegal));
    assert_eq!(ask(&tags[..1], &lent, 0.5), Err(Refusal::BufferTooShort));
    lent.extrapolates = false;
    assert_eq!(ask(&[0, 0], &lent, -1.0), Err(Refusal::QueryOutside));
    for (tag, number) in [(tags[0], 0), (0, 15)] {
        let (mut answers, mut marks) = ([OLD; 3], [true; 2]);
        assert_eq!(
            ffi::section(tag, &slots[..FIELDS], 0.5, &mut answers, &mut marks[..1]),
            11
        );
        assert_eq!(
            ffi::section(tag, &slots[..FIELDS], 0.5, &mut answers[..2], &mut marks),
            11
        );
        assert_eq!((answers, marks), ([OLD; 3], [true; 2]));
        assert_eq!(
            ffi::section(tag, &slots[..FIELDS], 0.5, &mut answers, &mut marks),
            number
        );
        assert_eq!(marks, [number != 0; 2]);
    }
    assert_eq!(
        Section {
            tag: 0,
            fields: [NAN; FIELDS]
        }
        .value(0.5),
        Err(Refusal::RecordNotLegal)
    );
}

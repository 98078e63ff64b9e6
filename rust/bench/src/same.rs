//! Whether both sides answer the same, bit for bit, any NaN matching any NaN. A row is measured only where they do.

use havgrunel::SLOTS;
use havgrunel::lent::Curve;
use oracle::words::same;
use oracle::{Settings, plain};

use crate::ours::Room;

/// Says where a side differs, and ends the program.
pub fn numbers(what: &str, ours: &[f64], theirs: &[f64]) {
    assert_eq!(ours.len(), theirs.len(), "{what}: the counts differ");
    for (place, (&ours, &theirs)) in ours.iter().zip(theirs).enumerate() {
        assert!(
            same(ours, theirs),
            "{what}: at {place} the library has {ours:?}, the original {theirs:?}"
        );
    }
}

/// Holds the curve of a table against the original's: every record, its prices at knots and its total too, and what answers beyond its
/// last knot, then prices and totals of the very curve that is measured.
pub fn curves(
    what: &str,
    settings: &Settings,
    (knots, averages): (&[f64], &[f64]),
    (room, curve): (&Room, &Curve),
    (told, measured): (&oracle::Curve, &plain::Curve),
) {
    assert_eq!(curve.sections, told.sections(), "{what}: the counts differ");
    let at_knots = oracle::knots(settings, knots, averages, told);
    for (place, at_knots) in at_knots.iter().enumerate() {
        let record = told.record(place);
        assert_eq!(room.tags[place], record.tag, "{what}: tag {place} differs");
        let theirs = [&record.slots[..], at_knots].concat();
        numbers(what, &room.slots[SLOTS * place..][..SLOTS], &theirs);
    }
    let tail = curve.tail;
    numbers(
        what,
        &[tail.value, tail.total, tail.from],
        &told.extrapolation(),
    );
    let middles = knots
        .windows(2)
        .map(|pair| pair[0] + (pair[1] - pair[0]) * 0.375);
    for x in knots.iter().copied().chain(middles) {
        let (tags, slots) = (&room.tags, &room.slots);
        let ours = [
            havgrunel::lent::value(knots, curve, tags, slots, x).expect("a knot's price"),
            havgrunel::lent::primitive(knots, curve, tags, slots, x).expect("a knot's total"),
        ];
        let theirs = [measured.value(x), measured.primitive(x)];
        let theirs = theirs.map(|answer| answer.unwrap_or_else(|_| panic!("{what}: no answer")));
        numbers(&format!("{what}, {settings:?}, at {x:?}"), &ours, &theirs);
    }
}

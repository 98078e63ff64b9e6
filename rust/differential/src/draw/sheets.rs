//! Tables that are cut into sheets: anywhere, and built in any order.

use oracle::answers::rng::Rng;

use super::tables::{spoil, table};
use super::{index, number, points, room};
use crate::case::{Case, Room, Sheets, Table};

/// Inner knots in rising order: one, some or all of them, where there are any.
fn cuts(rng: &mut Rng, points: usize) -> Vec<usize> {
    let Some(inner) = points.checked_sub(2).filter(|&inner| inner > 0) else {
        return Vec::new();
    };
    let one = 1 + index(rng, inner);
    let one_in = match rng.below(4) {
        0 => return vec![one],
        1 => 1,
        _ => 2 + rng.below(8),
    };
    (1..=inner)
        .filter(|&cut| cut == one || rng.chance(one_in))
        .collect()
}

/// Other cuts of the same table, or cuts that are not inner knots in rising order.
fn others(rng: &mut Rng, good: &[usize], points: usize) -> Vec<usize> {
    let wrong = rng.pick(&[
        0,
        points.saturating_sub(1),
        points,
        points + 1,
        usize::MAX / 2,
        usize::MAX,
    ]);
    let mut cuts = cuts(rng, points);
    let place = index(rng, cuts.len().max(1));
    match rng.below(8) {
        0 => {}
        1 => cuts.clear(),
        2 => cuts.insert(0, 0),
        3 => cuts.push(wrong),
        4 if !cuts.is_empty() => cuts[place] = wrong,
        5 if !cuts.is_empty() => cuts.insert(place, cuts[place]),
        6 if !cuts.is_empty() => {
            let other = index(rng, cuts.len());
            cuts.swap(place, other);
        }
        _ => cuts.extend_from_slice(good),
    }
    cuts
}

/// Every sheet, some of them twice, in any order.
fn order(rng: &mut Rng, sheets: usize) -> Vec<usize> {
    let mut order: Vec<usize> = (0..sheets).collect();
    if rng.chance(3) {
        order.extend((0..sheets).filter(|_| rng.chance(4)));
    }
    for place in (1..order.len()).rev() {
        order.swap(place, index(rng, place + 1));
    }
    order
}

pub fn sheets(rng: &mut Rng) -> Case {
    let points = points(rng);
    let mut table = table(rng, points);
    let mut room = room(rng);
    if rng.chance(6) {
        for _ in 0..1 + rng.below(2) {
            spoil(rng, &mut table, &mut room);
        }
    }
    // A sheet has neither.
    (table.hold, table.seam) = (false, None);
    cut(rng, table, room)
}

/// A table that is cut somewhere.
pub fn cut(rng: &mut Rng, table: Table, room: Room) -> Case {
    let points = table.x.len();
    let cuts = cuts(rng, points);
    Case::Sheets(Sheets {
        others: others(rng, &cuts, points),
        order: order(rng, cuts.len() + 1),
        given: [number(rng), number(rng), number(rng)],
        table,
        room,
        cuts,
    })
}

//! A table that grows by a point at a time, each curve taking over from the one before, until it has all of its points: what a bootstrap
//! that looks at a few points at once does. The library changes over between two sets of buffers.

use std::hint::black_box;

use oracle::{AT_HAND, plain};

use super::GAS;
use crate::ours::{Room, method};
use crate::report::Report;
use crate::same;
use crate::tables::{Table, winter};

/// How many periods the first curve has.
const LOCALISATION: usize = 2;

/// Grows the whole table and shows each curve to `see`.
fn ours(
    table: &Table,
    rooms: &mut [Room; 2],
    mut see: impl FnMut(usize, &Room, havgrunel::lent::Curve),
) {
    let [new, old] = rooms;
    let (mut new, mut old) = (new, old);
    let mut previous = None;
    for points in LOCALISATION + 1..=table.points() {
        let part = (&table.knots[..points], &table.averages[..points]);
        let from = previous.map(|curve| (&*old, curve));
        let curve = new
            .grow(method(&GAS), part, LOCALISATION, from, table.points())
            .expect("a winter grows");
        see(points, new, curve);
        previous = Some(curve);
        std::mem::swap(&mut new, &mut old);
    }
}

/// The same by the original.
fn theirs(table: &Table, mut see: impl FnMut(&plain::Curve)) {
    let mut previous = None;
    for points in LOCALISATION + 1..=table.points() {
        let (knots, averages) = (&table.knots[..points], &table.averages[..points]);
        let from = previous.as_ref();
        let size = table.points();
        let curve = plain::grow(&GAS, knots, averages, LOCALISATION, from, size)
            .unwrap_or_else(|_| panic!("the original grows a winter"));
        see(&curve);
        previous = Some(curve);
    }
}

fn check(table: &Table, rooms: &mut [Room; 2]) {
    let mut told = None;
    let mut measured = None;
    ours(table, rooms, |points, room, curve| {
        let (knots, averages) = (&table.knots[..points], &table.averages[..points]);
        let size = table.points();
        let from = told.as_ref();
        let other = oracle::grow(&GAS, knots, averages, LOCALISATION, from, size);
        let other = other.expect("the original grows a winter");
        let from = measured.as_ref();
        let bare = plain::grow(&GAS, knots, averages, LOCALISATION, from, size);
        let bare = bare.unwrap_or_else(|_| panic!("the original grows a winter"));
        same::curves(
            "growth",
            &GAS,
            (knots, averages),
            (room, &curve),
            (&other, &bare),
        );
        told = Some(other);
        measured = Some(bare);
    });
}

pub fn rows(report: &mut Report) {
    for points in [61, 400] {
        let name = format!("growth to n={points}");
        if !report.wants(&name) {
            continue;
        }
        let table = winter(points);
        let sections = (LOCALISATION..points).sum();
        let mut rooms = [Room::new(), Room::new()];
        if AT_HAND {
            check(&table, &mut rooms);
        }
        let mut ours = || {
            ours(black_box(&table), &mut rooms, |_, room, curve| {
                black_box((&room.nodes, &room.tags, &room.slots, &curve));
            });
        };
        let mut theirs = || {
            theirs(black_box(&table), |curve| {
                black_box(curve);
            });
        };
        report.row(
            name,
            "section",
            sections,
            &mut ours,
            AT_HAND.then_some(&mut theirs),
        );
    }
}

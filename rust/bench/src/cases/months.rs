//! A curve built by delivery months, against the library's own build of it over knots that are ready: the ratio is what the calendar and the
//! knots cost. Both sides write into the same buffers.

use std::cell::RefCell;
use std::hint::black_box;

use havgrunel::{Period, month, month_knots};
use oracle::answers::rng::Rng;

use super::GAS;
use crate::ours::{Months, Room, method};
use crate::report::Report;
use crate::same;
use crate::tables::{Table, winters};

/// A year of months, and five years.
const POINTS: [usize; 2] = [13, 61];

/// Winters over the days of the calendar, each from a month that is drawn.
fn delivered(points: usize) -> Vec<(Months, Table)> {
    let rng = &mut Rng::new(points as u64);
    let deliver = |Table { averages, .. }: Table| {
        let first = month(2000 + rng.below(90) as i32, 1 + rng.below(12) as u8);
        let last = first + averages.len() as i64 - 2;
        let knots = month_knots(first, last, Period::Month).expect("months of the calendar");
        (Months { first, last }, Table { knots, averages })
    };
    winters(points).into_iter().map(deliver).collect()
}

/// That a build by months leaves what the build over its knots leaves, and these knots.
fn check(months: Months, table: &Table) {
    let (mut by_months, mut by_knots) = (Room::new(), Room::new());
    let curve = by_months.build_months(method(&GAS), months, &table.averages);
    let due = by_knots.build(method(&GAS), table);
    assert!(curve.is_ok(), "a winter is built");
    assert_eq!(curve, due, "the curves differ");
    assert_eq!(by_months.tags, by_knots.tags, "the tags differ");
    same::numbers("nodes", &by_months.nodes, &by_knots.nodes);
    same::numbers("slots", &by_months.slots, &by_knots.slots);
    same::numbers("knots", &by_months.knots[..table.points()], &table.knots);
}

pub fn rows(report: &mut Report) {
    let asked = method(&GAS);
    let mut measured = false;
    for points in POINTS {
        let name = format!("build by months n={points}");
        if !report.wants(&name) {
            continue;
        }
        measured = true;
        let tables = delivered(points);
        let sections = tables.iter().map(|(_, table)| table.sections()).sum();
        tables
            .iter()
            .for_each(|(months, table)| check(*months, table));
        let room = RefCell::new(Room::new());
        let mut by_months = || {
            let room = &mut *room.borrow_mut();
            for (months, table) in &tables {
                let averages = black_box(&table.averages);
                let made = room.build_months(black_box(asked), black_box(*months), averages);
                black_box((&made, &room.knots, &room.nodes, &room.tags, &room.slots));
            }
        };
        let mut by_knots = || {
            let room = &mut *room.borrow_mut();
            for (_, table) in &tables {
                let made = room.build(black_box(asked), black_box(table));
                black_box((&made, &room.nodes, &room.tags, &room.slots));
            }
        };
        report.row(
            name,
            "section",
            sections,
            &mut by_months,
            Some(&mut by_knots),
        );
    }
    if measured {
        report.remark("Beside a build by months stands the library's own build over ready knots.");
    }
}

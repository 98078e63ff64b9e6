//! A table built together with its column, against the library's own build of it without one: the ratio is what the column costs. Both
//! sides write into the same buffers.

use std::cell::RefCell;
use std::hint::black_box;

use oracle::Settings;

use super::SIZES;
use crate::ours::{Built, Room, method};
use crate::report::Report;
use crate::same;
use crate::tables::{Table, winters};

/// That a build with a column leaves the records of the build without one, and the curve's own totals at its knots.
fn check(settings: &Settings, table: &Table) {
    let built = Built::new(method(settings), table);
    let mut plain = Room::new();
    let curve = plain.build(method(settings), table);
    assert_eq!(curve, Ok(built.curve), "the curves differ");
    assert_eq!(plain.tags, built.room.tags, "the tags differ");
    same::numbers("nodes", &built.room.nodes, &plain.nodes);
    same::numbers("slots", &built.room.slots, &plain.slots);
    let mut totals = vec![0.0; table.points()];
    let asked = built.primitives(&table.knots, &mut totals);
    asked.expect("all knots are in range");
    same::numbers("column", &built.room.column[..table.points()], &totals);
}

pub fn rows(report: &mut Report) {
    let mut measured = false;
    for quadraticity in [0.0, 0.3, 1.0] {
        for (mode, positivity) in [("positive", true), ("free", false)] {
            let settings = Settings {
                quadraticity,
                monotonicity: 0.7,
                positivity,
            };
            let asked = method(&settings);
            for points in SIZES {
                let name = format!("build with column n={points} q={quadraticity} {mode}");
                if !report.wants(&name) {
                    continue;
                }
                measured = true;
                let tables = winters(points);
                let sections = tables.iter().map(Table::sections).sum();
                tables.iter().for_each(|table| check(&settings, table));
                let room = RefCell::new(Room::new());
                let mut with = || {
                    let room = &mut *room.borrow_mut();
                    for table in &tables {
                        let made = room.build_with_column(black_box(asked), black_box(table));
                        black_box((&made, &room.nodes, &room.tags, &room.slots, &room.column));
                    }
                };
                let mut without = || {
                    let room = &mut *room.borrow_mut();
                    for table in &tables {
                        let made = room.build(black_box(asked), black_box(table));
                        black_box((&made, &room.nodes, &room.tags, &room.slots));
                    }
                };
                report.row(name, "section", sections, &mut with, Some(&mut without));
            }
        }
    }
    if measured {
        report.remark("Beside a build with a column stands the library's own build without one.");
    }
}

//! A table built into a curve. The original copies the table and allocates a box for each part of each section; that, and giving
//! all of it back, is part of every use of it and is measured. A careful or a safe build has the library's side alone, since
//! the original has no such mode; the library's row in the original's mode stands beside it.

use std::hint::black_box;

use havgrunel::Split;
use oracle::{AT_HAND, Settings, plain};

use super::SIZES;
use crate::kinds::Kinds;
use crate::ours::{Room, method};
use crate::report::Report;
use crate::same;
use crate::tables::{Table, winters};

fn check(settings: &Settings, tables: &[Table], room: &mut Room) {
    for table in tables {
        let Table { knots, averages } = table;
        let curve = room
            .build(method(settings), table)
            .expect("a winter is built");
        let told = oracle::build(settings, knots, averages).expect("the original builds a winter");
        let nodes = oracle::nodes(settings, knots, averages, None).expect("it has nodes");
        same::numbers("nodes", &room.nodes[..table.points()], &nodes);
        let measured = plain::build(settings, knots, averages).expect("the original builds it");
        same::curves(
            "build",
            settings,
            (knots, averages),
            (room, &curve),
            (&told, &measured),
        );
    }
}

/// What a row's name says of it: positivity, and the rule by which it splits.
const MODES: [(&str, bool, Split); 4] = [
    ("positive", true, Split::Original),
    ("positive careful", true, Split::Careful),
    ("positive safe", true, Split::Safe),
    ("free", false, Split::Original),
];

pub fn rows(report: &mut Report) {
    for quadraticity in [0.0, 0.3, 1.0] {
        for (mode, positivity, split) in MODES {
            let settings = Settings {
                quadraticity,
                monotonicity: 0.7,
                positivity,
            };
            let asked = method(&settings).with_split(split);
            let both = AT_HAND && split == Split::Original;
            let mut kinds = Kinds::default();
            let mut measured = false;
            for points in SIZES {
                let name = format!("build n={points} q={quadraticity} {mode}");
                if !report.wants(&name) {
                    continue;
                }
                measured = true;
                let tables = winters(points);
                let sections = tables.iter().map(Table::sections).sum();
                let mut room = Room::new();
                if both {
                    check(&settings, &tables, &mut room);
                }
                for table in &tables {
                    room.build(asked, table).expect("a winter is built");
                    kinds.add(&room.tags[..table.sections()]);
                }
                let mut ours = || {
                    for table in &tables {
                        let made = room.build(black_box(asked), black_box(table));
                        black_box((&made, &room.nodes, &room.tags, &room.slots));
                    }
                };
                let mut theirs = || {
                    for table in &tables {
                        let Table { knots, averages } = black_box(table);
                        let made = plain::build(black_box(&settings), knots, averages);
                        black_box(&made);
                    }
                };
                report.row(
                    name,
                    "section",
                    sections,
                    &mut ours,
                    both.then_some(&mut theirs),
                );
            }
            if measured {
                report.note(format!("q={quadraticity} {mode}: {kinds}"));
            }
        }
    }
}

//! Curves that are asked through changed copies of their knots and records.

use havgrunel::{FIELDS, MOST_POINTS, SLOTS};
use oracle::answers::rng::Rng;

use super::tables::table;
use super::{BEHIND, ENDS, RECORD, index, number, queries, tag};
use crate::case::{Case, Reading};

pub fn reading(rng: &mut Rng) -> Case {
    let points = match rng.below(1024) {
        0 => MOST_POINTS - 1 + index(rng, 2),
        1..=8 => 41 + index(rng, 260),
        _ => 2 + index(rng, 11),
    };
    let mut table = table(rng, points);
    table.seam = None;
    let mut knots = table.x.clone();
    let mut reading = Reading {
        knots: Vec::new(),
        tags: 0,
        slots: 0,
        new_tags: Vec::new(),
        new_slots: Vec::new(),
        tail: None,
        queries: queries(rng, &table.x),
        answer: rng.pick(&[1, 1, 1, 2, 3, 0]),
        records: Vec::new(),
        table,
    };
    for _ in 0..rng.below(4) {
        let count = knots.len();
        match rng.below(12) {
            0 if count > 0 => knots[index(rng, count)] = rng.pick(&ENDS),
            1 if count > 0 => knots.swap(index(rng, count), index(rng, count)),
            2 if count > 1 => {
                let place = index(rng, count - 1);
                knots[place + 1] = knots[place];
            }
            3 => knots.truncate(index(rng, count + 1)),
            4 => {
                let more = rng.pick(&[count + 1, count + 1, MOST_POINTS, MOST_POINTS + 1]);
                let mut last = knots.last().map_or(0.0, |&last| last);
                while knots.len() < more {
                    last = (last + 1.0).max(last.next_up());
                    knots.push(last);
                }
            }
            5 => reading.tags = rng.pick(&[-1, -2, 1, 5]),
            6 => reading.slots = rng.pick(&[-1, -BEHIND, -RECORD, 1, RECORD, 10 * RECORD]),
            7 | 8 => reading.new_tags.push((index(rng, points), tag(rng))),
            9 | 10 => {
                let place = index(rng, SLOTS * (points - 1));
                reading.new_slots.push((place, number(rng)));
            }
            _ => reading.tail = Some([number(rng), number(rng), number(rng)]),
        }
    }
    reading.knots = knots;
    for _ in 0..2 {
        reading.records.push((
            rng.pick(&[points, points, points, points + 1, 0, 1, 2, MOST_POINTS + 1]),
            match rng.below(6) {
                0 => rng.pick(&[points - 1, points, usize::MAX]),
                _ => index(rng, points),
            },
            rng.pick(&[SLOTS, SLOTS, SLOTS + 1, SLOTS - 1, FIELDS, 0]),
        ));
    }
    Case::Reading(reading)
}

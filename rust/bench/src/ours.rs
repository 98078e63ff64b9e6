//! The library over lent buffers, which are made once and never cleared.

use havgrunel::lent::{self, Buffers, Curve, Previous};
use havgrunel::{
    ConvexMonotone, MOST_MONTH_KNOTS, MOST_POINTS, ManyRefused, Period, Refusal, SLOTS,
};
use oracle::Settings;

use crate::tables::Table;

/// Room for any curve.
pub struct Room {
    pub nodes: Vec<f64>,
    pub tags: Vec<u16>,
    pub slots: Vec<f64>,
    pub column: Vec<f64>,
    /// The knots of delivery months.
    pub knots: Vec<f64>,
}

/// Delivery months, the last one included.
#[derive(Clone, Copy)]
pub struct Months {
    pub first: i64,
    pub last: i64,
}

pub fn method(settings: &Settings) -> ConvexMonotone {
    ConvexMonotone::new(
        settings.quadraticity,
        settings.monotonicity,
        settings.positivity,
    )
}

impl Room {
    pub fn new() -> Room {
        Room {
            nodes: vec![0.0; MOST_POINTS],
            tags: vec![0; MOST_POINTS - 1],
            slots: vec![0.0; SLOTS * (MOST_POINTS - 1)],
            column: vec![0.0; MOST_POINTS],
            knots: vec![0.0; MOST_MONTH_KNOTS],
        }
    }

    fn lent(&mut self) -> (Buffers<'_>, &mut [f64]) {
        let buffers = Buffers {
            nodes: &mut self.nodes,
            tags: &mut self.tags,
            slots: &mut self.slots,
        };
        (buffers, &mut self.column)
    }

    pub fn build(&mut self, method: ConvexMonotone, table: &Table) -> Result<Curve, Refusal> {
        let Table { knots, averages } = table;
        lent::build(knots, averages, method, false, None, self.lent().0)
    }

    pub fn build_with_column(
        &mut self,
        method: ConvexMonotone,
        table: &Table,
    ) -> Result<Curve, Refusal> {
        let Table { knots, averages } = table;
        let (buffers, column) = self.lent();
        lent::build_with_column(knots, averages, method, false, None, buffers, column)
    }

    pub fn build_months(
        &mut self,
        method: ConvexMonotone,
        Months { first, last }: Months,
        averages: &[f64],
    ) -> Result<Curve, Refusal> {
        let buffers = Buffers {
            nodes: &mut self.nodes,
            tags: &mut self.tags,
            slots: &mut self.slots,
        };
        let (period, knots) = (Period::Month, &mut self.knots);
        lent::build_months(
            first, last, period, averages, method, false, None, knots, buffers,
        )
    }

    /// The curve of the first points of a table, grown from a previous one and the room that holds its records.
    pub fn grow(
        &mut self,
        method: ConvexMonotone,
        (knots, averages): (&[f64], &[f64]),
        localisation: usize,
        previous: Option<(&Room, Curve)>,
        final_size: usize,
    ) -> Result<Curve, Refusal> {
        let previous = previous.map(|(room, curve)| Previous {
            sections: curve.sections,
            held: curve.held,
            tags: &room.tags,
            slots: &room.slots,
        });
        lent::grow(
            knots,
            averages,
            method,
            localisation,
            previous,
            final_size,
            self.lent().0,
        )
    }
}

/// A curve that was built with its column, to be asked.
pub struct Built<'a> {
    pub knots: &'a [f64],
    pub curve: Curve,
    pub room: Room,
}

impl<'a> Built<'a> {
    pub fn new(method: ConvexMonotone, table: &'a Table) -> Built<'a> {
        let mut room = Room::new();
        let curve = room.build_with_column(method, table);
        let curve = curve.expect("a winter is built");
        Built {
            knots: &table.knots,
            curve,
            room,
        }
    }

    pub fn value(&self, x: f64) -> Result<f64, Refusal> {
        let Room { tags, slots, .. } = &self.room;
        lent::value(self.knots, &self.curve, tags, slots, x)
    }

    pub fn primitive(&self, x: f64) -> Result<f64, Refusal> {
        let Room { tags, slots, .. } = &self.room;
        lent::primitive(self.knots, &self.curve, tags, slots, x)
    }

    pub fn values(&self, queries: &[f64], answers: &mut [f64]) -> Result<(), ManyRefused> {
        let Room { tags, slots, .. } = &self.room;
        lent::values(self.knots, &self.curve, tags, slots, queries, answers)
    }

    pub fn primitives(&self, queries: &[f64], answers: &mut [f64]) -> Result<(), ManyRefused> {
        let Room { tags, slots, .. } = &self.room;
        lent::primitives(self.knots, &self.curve, tags, slots, queries, answers)
    }

    pub fn strip(&self, a: f64, b: f64) -> Result<f64, Refusal> {
        let Room { tags, slots, .. } = &self.room;
        lent::strip(self.knots, &self.curve, tags, slots, a, b)
    }

    pub fn strip_run(&self, edges: &[f64], answers: &mut [f64]) -> Result<(), ManyRefused> {
        let Room { tags, slots, .. } = &self.room;
        lent::strip_run(self.knots, &self.curve, tags, slots, edges, answers)
    }

    pub fn strip_between(&self, i: usize, j: usize) -> Result<f64, Refusal> {
        lent::strip_between(self.knots, &self.room.column, i, j)
    }
}

//! What the records of curves said behind their sections' own numbers.

use oracle::words::same;

use crate::at_knots::Asked;

/// The three numbers, as they are counted.
const NAMES: [&str; 3] = ["left price", "right price", "total after it"];

#[derive(Clone, Default)]
pub struct AtKnots {
    /// Of each of the three, those that are infinite and those that are not a number.
    infinite: [u64; NAMES.len()],
    not_numbers: [u64; NAMES.len()],
    /// Held last periods, the single periods of two points, and the periods that end on another price than the next one starts from.
    held: u64,
    alone: u64,
    jumps: u64,
}

impl AtKnots {
    pub fn see(&mut self, asked: &Asked<'_>) {
        let told = asked.all[asked.place];
        for (place, number) in told.into_iter().enumerate() {
            self.infinite[place] += u64::from(number.is_infinite());
            self.not_numbers[place] += u64::from(number.is_nan());
        }
        self.held += u64::from(asked.is_held());
        self.alone += u64::from(asked.is_alone());
        let next = asked.all.get(asked.place + 1);
        self.jumps += u64::from(next.is_some_and(|next| !same(told[1], next[0])));
    }

    pub fn add(&mut self, other: &AtKnots) {
        for place in 0..NAMES.len() {
            self.infinite[place] += other.infinite[place];
            self.not_numbers[place] += other.not_numbers[place];
        }
        self.held += other.held;
        self.alone += other.alone;
        self.jumps += other.jumps;
    }

    /// A name and how often that occurred, for each.
    pub fn rows(&self) -> Vec<(String, u64)> {
        let mut rows = Vec::new();
        for (place, name) in NAMES.into_iter().enumerate() {
            rows.push((format!("in records: {name} infinite"), self.infinite[place]));
            let not_numbers = format!("in records: {name} not a number");
            rows.push((not_numbers, self.not_numbers[place]));
        }
        rows.push(("in records: held last periods".into(), self.held));
        rows.push(("in records: periods of two points".into(), self.alone));
        let jumps = "in records: the next starts from another";
        rows.push((jumps.into(), self.jumps));
        rows
    }
}

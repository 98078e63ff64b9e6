//! What columns held and which strips were asked for.

use oracle::words::same;

use crate::strip::Entry;

/// What is counted of them.
#[derive(Clone, Copy)]
pub enum Of {
    /// Curves that were written with their columns, and those that were refused for a column that is too short.
    Columns,
    ShortColumns,
    /// Of their entries those that are infinite, those that are not a number, and last ones that the last section tells otherwise.
    Infinite,
    NotNumbers,
    ByTheTail,
    /// Strips that were asked one by one, accepted or not, and of those accepted the ones within a period, across knots and outside them.
    Asked,
    Within,
    Across,
    Outside,
    /// Those refused for their ends: equal, and not.
    Equal,
    Reversed,
    /// Those refused by a query at their second end.
    SecondEnd,
    /// Calls for several strips and runs of several, accepted and refused.
    Many,
    ManyRefused,
    Runs,
    RunsRefused,
    /// Strips between two places, accepted; refused though the first is below the second; and asked of a column that is too short.
    Between,
    PastTheLast,
    BetweenShort,
}

const NAMES: [(Of, &str); 19] = [
    (Of::Columns, "columns written with a curve"),
    (Of::ShortColumns, "columns too short for their curve"),
    (Of::Infinite, "in columns: entries infinite"),
    (Of::NotNumbers, "in columns: entries not a number"),
    (Of::ByTheTail, "in columns: last entry only the tail's"),
    (Of::Asked, "strips asked, refused ones too"),
    (Of::Within, "in strips: within one period"),
    (Of::Across, "in strips: across knots"),
    (Of::Outside, "in strips: an end outside the knots"),
    (Of::Equal, "in strips: refused for equal ends"),
    (Of::Reversed, "in strips: refused for falling ends"),
    (Of::SecondEnd, "in strips: refused at the second end"),
    (Of::Many, "several strips at once"),
    (Of::ManyRefused, "several strips at once, refused"),
    (Of::Runs, "runs of several strips"),
    (Of::RunsRefused, "runs of several strips, refused"),
    (Of::Between, "strips between two places"),
    (Of::PastTheLast, "strips to a place past the last"),
    (Of::BetweenShort, "strips between places, column too short"),
];

#[derive(Clone, Default)]
pub struct Strips {
    counts: [u64; NAMES.len()],
}

impl Strips {
    pub fn see(&mut self, of: Of) {
        self.counts[of as usize] += 1;
    }

    /// An entry of a column.
    pub fn entry(&mut self, entry: &Entry) {
        if entry.total.is_infinite() {
            self.see(Of::Infinite);
        }
        if entry.total.is_nan() {
            self.see(Of::NotNumbers);
        }
        if entry.is_last && !same(entry.total, entry.by_the_left) {
            self.see(Of::ByTheTail);
        }
    }

    pub fn add(&mut self, other: &Strips) {
        for (mine, others) in self.counts.iter_mut().zip(other.counts) {
            *mine += others;
        }
    }

    /// A name and how often that occurred, for each.
    pub fn rows(&self) -> Vec<(String, u64)> {
        let row = |&(of, name): &(Of, &str)| (name.into(), self.counts[of as usize]);
        NAMES.iter().map(row).collect()
    }
}

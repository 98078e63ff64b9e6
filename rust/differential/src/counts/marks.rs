//! Which answers were not finite, and so compared by the mark, and how queries were asked several at once.

/// What is counted of them.
#[derive(Clone, Copy)]
pub enum Of {
    /// Answers that were asked one by one: prices and totals of curves, strips, strips between two places, and entries of columns.
    Values,
    Primitives,
    Strips,
    Between,
    Entries,
    /// The marks of sections, which hand back the number as well.
    SectionValues,
    SectionPrimitives,
    /// All of these, by what they are.
    Infinite,
    NotNumbers,
    /// Strips whose two totals are finite.
    FiniteTotals,
    /// Calls for several that were refused for the first that is not finite: queries, strips and runs.
    FirstQuery,
    FirstStrip,
    FirstOfRun,
    /// Calls for several queries, accepted and refused.
    Queries,
    QueriesRefused,
}

const NAMES: [(Of, &str); 15] = [
    (Of::Values, "by the mark: values"),
    (Of::Primitives, "by the mark: primitives"),
    (Of::Strips, "by the mark: strips"),
    (Of::Between, "by the mark: strips between two places"),
    (Of::Entries, "by the mark: entries of columns read"),
    (Of::SectionValues, "by the mark, too: values of sections"),
    (
        Of::SectionPrimitives,
        "by the mark, too: primitives of sections",
    ),
    (Of::Infinite, "of these: infinite"),
    (Of::NotNumbers, "of these: not a number"),
    (Of::FiniteTotals, "of these: strips of two finite totals"),
    (Of::FirstQuery, "several queries, the first by the mark"),
    (Of::FirstStrip, "several strips, the first by the mark"),
    (Of::FirstOfRun, "runs of several, the first by the mark"),
    (Of::Queries, "several queries at once"),
    (Of::QueriesRefused, "several queries at once, refused"),
];

#[derive(Clone, Default)]
pub struct Marks {
    counts: [u64; NAMES.len()],
}

impl Marks {
    pub fn see(&mut self, of: Of) {
        self.counts[of as usize] += 1;
    }

    /// An answer that is due by the mark, and the number that is not finite.
    pub fn answer(&mut self, of: Of, number: f64) {
        self.see(of);
        self.see(if number.is_nan() {
            Of::NotNumbers
        } else {
            Of::Infinite
        });
    }

    pub fn add(&mut self, other: &Marks) {
        for (mine, others) in self.counts.iter_mut().zip(other.counts) {
            *mine += others;
        }
    }

    /// All answers that were compared by the mark.
    fn all(&self) -> u64 {
        self.counts[Of::Infinite as usize] + self.counts[Of::NotNumbers as usize]
    }

    /// A name and how often that occurred, for each.
    pub fn rows(&self) -> Vec<(String, u64)> {
        let row = |&(of, name): &(Of, &str)| (name.into(), self.counts[of as usize]);
        let mut rows = vec![("by the mark".into(), self.all())];
        rows.extend(NAMES.iter().map(row));
        rows
    }
}

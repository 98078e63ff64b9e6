//! What a strip, an entry of a column and a strip between two places have to be.

use crate::mark::told;

/// The refusal that strips add.
pub const STRIP_ENDS_NOT_RISING: u8 = 18;

/// A strip, and what queries for the total answer at its two ends.
pub struct Strip {
    pub a: f64,
    pub b: f64,
    pub from: Result<f64, u8>,
    pub to: Result<f64, u8>,
}

impl Strip {
    /// Its own number, where both ends are answered.
    pub fn number(&self) -> Option<f64> {
        let (from, to) = (self.from.ok()?, self.to.ok()?);
        Some((to - from) / (self.b - self.a))
    }
}

/// An entry of a column: what is told of the total up to one knot.
pub struct Entry {
    /// What a query answers there.
    pub total: f64,
    /// What the section that ends there tells of it; of the first knot, the section that starts there.
    pub by_the_left: f64,
    /// The running total before the next period.
    pub running: f64,
    pub is_last: bool,
}

/// A strip between two knots by their numbers, over sound knots and a column that is long enough.
pub struct Between<'a> {
    pub knots: &'a [f64],
    pub column: &'a [f64],
    pub i: usize,
    pub j: usize,
}

impl Between<'_> {
    /// Its own number, where both places are knots.
    pub fn number(&self) -> Option<f64> {
        let total = |place: usize| Some((*self.column.get(place)?, *self.knots.get(place)?));
        let ((from, a), (to, b)) = (total(self.i)?, total(self.j)?);
        Some((to - from) / (b - a))
    }
}

/// What is due of each, and of an entry that is read from a column.
#[derive(Clone, Copy)]
pub struct Rule {
    pub strip: fn(&Strip) -> Result<f64, u8>,
    pub entry: fn(&Entry) -> f64,
    pub read: fn(f64) -> Result<f64, u8>,
    pub between: fn(&Between<'_>) -> Result<f64, u8>,
}

/// The rule of document 02.
pub const RULE: Rule = Rule {
    strip: two_totals,
    entry: |entry| entry.total,
    read: told,
    between: two_entries,
};

/// The difference of the totals over the length. A query that is refused refuses the strip, the first end's first; then the ends do, and at
/// last the strip's own number, where it is not finite.
pub fn two_totals(strip: &Strip) -> Result<f64, u8> {
    let (from, to) = (strip.from?, strip.to?);
    if strip.a < strip.b {
        told((to - from) / (strip.b - strip.a))
    } else {
        Err(STRIP_ENDS_NOT_RISING)
    }
}

/// The difference of two entries over that of their knots, where that is finite.
pub fn two_entries(between: &Between<'_>) -> Result<f64, u8> {
    let &Between {
        knots,
        column,
        i,
        j,
    } = between;
    if i < j && j < knots.len() {
        told((column[j] - column[i]) / (knots[j] - knots[i]))
    } else {
        Err(STRIP_ENDS_NOT_RISING)
    }
}

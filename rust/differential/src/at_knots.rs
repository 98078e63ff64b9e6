//! What a curve's record says behind its section's own numbers: the price at its left knot, the price at its right one, and the running
//! total after its period.

/// These three numbers of each period of a curve, and the period that is asked for.
pub struct Asked<'a> {
    pub all: &'a [[f64; 3]],
    pub place: usize,
    /// Whether the last period is held.
    pub held: bool,
}

impl Asked<'_> {
    /// Whether it is the last period, and held.
    pub fn is_held(&self) -> bool {
        self.held && self.place + 1 == self.all.len()
    }

    /// Whether the curve has no other.
    pub fn is_alone(&self) -> bool {
        self.all.len() == 1
    }
}

/// What is due of the period that is asked for.
pub type Rule = fn(&Asked<'_>) -> [f64; 3];

/// Its own numbers.
pub fn own(asked: &Asked<'_>) -> [f64; 3] {
    asked.all[asked.place]
}

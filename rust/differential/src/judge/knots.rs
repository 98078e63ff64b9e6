//! Knots that were refused, asked by a query.

use havgrunel::lent::Curve;
use oracle::Settings;

use super::compare::Agreed;
use super::{Asking, Judge, built, tail};

/// Settings that nothing refuses.
const SOUND: Settings = Settings {
    quadraticity: 0.0,
    monotonicity: 0.0,
    positivity: false,
};

impl Judge {
    /// That a query refuses these knots by the number that the original has for them with sound settings and averages.
    pub(super) fn refused_knots(&mut self, knots: &[f64]) -> Agreed {
        let sound = vec![0.0; knots.len()];
        let judged = built(&SOUND, knots, &sound, false, None);
        let Err(due @ (5 | 7)) = judged else {
            return Ok(());
        };
        let curve = Curve {
            sections: knots.len() - 1,
            held: false,
            extrapolates: true,
            tail: tail(&[0.0; 3]),
        };
        let asking = Asking {
            knots,
            tags: &self.lent.tags,
            slots: &self.lent.slots,
            curve,
            entries: 1,
            marks: self.marks,
            strips: self.strips,
        };
        asking.query(0.0, Err(due), &mut self.counts)?;
        asking.queries(&[(0.0, Err(due))], &mut self.counts)?;
        self.counts.refused_knots += 1;
        let fall = knots.windows(2).position(|pair| pair[0] >= pair[1]);
        let bad = knots.iter().position(|knot| !knot.is_finite());
        if let (Some(fall), Some(bad)) = (fall, bad)
            && fall + 1 < bad
        {
            self.counts.bad_behind_a_fall += 1;
        }
        Ok(())
    }
}

//! A curve that owns its knots and its sections' records.

use crate::lent::{self, Buffers, Curve, Previous};
use crate::{ConvexMonotone, MOST_POINTS, ManyRefused, Period, Record, Refusal, SLOTS, Tail};

/// A curve of the method over rising knots.
#[derive(Clone, Debug)]
pub struct ConvexMonotoneInterpolation {
    knots: Vec<f64>,
    nodes: Vec<f64>,
    tags: Vec<u16>,
    slots: Vec<f64>,
    column: Option<Vec<f64>>,
    curve: Curve,
}

/// Room for the curve of so many points; none for a number that is refused whatever room there is.
struct Room {
    nodes: Vec<f64>,
    tags: Vec<u16>,
    slots: Vec<f64>,
}

impl Room {
    fn new(points: usize) -> Room {
        let points = if (2..=MOST_POINTS).contains(&points) {
            points
        } else {
            0
        };
        let sections = points.saturating_sub(1);
        Room {
            nodes: vec![0.0; points],
            tags: vec![0; sections],
            slots: vec![0.0; SLOTS * sections],
        }
    }

    fn lent(&mut self) -> Buffers<'_> {
        Buffers {
            nodes: &mut self.nodes,
            tags: &mut self.tags,
            slots: &mut self.slots,
        }
    }

    fn holding(self, knots: Vec<f64>, curve: Curve) -> ConvexMonotoneInterpolation {
        ConvexMonotoneInterpolation {
            knots,
            nodes: self.nodes,
            tags: self.tags,
            slots: self.slots,
            column: None,
            curve,
        }
    }

    /// Room for the column of the same curve.
    fn column(&self) -> Vec<f64> {
        vec![0.0; self.nodes.len()]
    }
}

impl ConvexMonotoneInterpolation {
    /// The curve of a table, as [`ConvexMonotone::interpolate`] makes it.
    pub fn new(
        x: Vec<f64>,
        y: Vec<f64>,
        quadraticity: f64,
        monotonicity: f64,
        force_positive: bool,
    ) -> Result<Self, Refusal> {
        let method = ConvexMonotone::new(quadraticity, monotonicity, force_positive);
        Self::built(x, &y, method)
    }

    pub(crate) fn built(x: Vec<f64>, y: &[f64], method: ConvexMonotone) -> Result<Self, Refusal> {
        let mut room = Room::new(x.len());
        let curve = lent::build(&x, y, method, false, None, room.lent())?;
        Ok(room.holding(x, curve))
    }

    pub(crate) fn built_by_months(
        first: i64,
        last: i64,
        period: Period,
        y: &[f64],
        method: ConvexMonotone,
    ) -> Result<Self, Refusal> {
        let mut knots = vec![0.0; period.room(first, last)];
        let mut room = Room::new(knots.len());
        let curve = lent::build_months(
            first,
            last,
            period,
            y,
            method,
            false,
            None,
            &mut knots,
            room.lent(),
        )?;
        Ok(room.holding(knots, curve))
    }

    pub(crate) fn built_with_column(
        x: Vec<f64>,
        y: &[f64],
        method: ConvexMonotone,
    ) -> Result<Self, Refusal> {
        let mut room = Room::new(x.len());
        let mut column = room.column();
        let curve = lent::build_with_column(&x, y, method, false, None, room.lent(), &mut column)?;
        Ok(room.holding(x, curve).with_column(column))
    }

    pub(crate) fn built_in_sheets(
        x: Vec<f64>,
        y: &[f64],
        method: ConvexMonotone,
        cuts: &[usize],
    ) -> Result<Self, Refusal> {
        let mut room = Room::new(x.len());
        let curve = lent::build_in_sheets(&x, y, method, cuts, room.lent())?;
        Ok(room.holding(x, curve))
    }

    pub(crate) fn grown(
        x: Vec<f64>,
        y: &[f64],
        method: ConvexMonotone,
        localisation: usize,
        prev: Option<&Self>,
        final_size: usize,
    ) -> Result<Self, Refusal> {
        let mut room = Room::new(x.len());
        let curve = lent::grow(
            &x,
            y,
            method,
            localisation,
            prev.map(Self::previous),
            final_size,
            room.lent(),
        )?;
        Ok(room.holding(x, curve))
    }

    pub(crate) fn grown_with_column(
        x: Vec<f64>,
        y: &[f64],
        method: ConvexMonotone,
        localisation: usize,
        prev: Option<&Self>,
        final_size: usize,
    ) -> Result<Self, Refusal> {
        let mut room = Room::new(x.len());
        let mut column = room.column();
        let curve = lent::grow_with_column(
            &x,
            y,
            method,
            localisation,
            prev.map(Self::previous),
            final_size,
            room.lent(),
            &mut column,
        )?;
        Ok(room.holding(x, curve).with_column(column))
    }

    /// What a table that grows takes of this curve.
    fn previous(&self) -> Previous<'_> {
        Previous {
            sections: self.curve.sections,
            held: self.curve.held,
            tags: &self.tags,
            slots: &self.slots,
        }
    }

    fn with_column(self, column: Vec<f64>) -> Self {
        let column = Some(column);
        ConvexMonotoneInterpolation { column, ..self }
    }

    /// The same curve, with places outside its knots allowed or not. A curve is made with them off.
    pub fn with_extrapolation(mut self, allow: bool) -> Self {
        self.curve.extrapolates = allow;
        self
    }

    /// Whether places outside the knots are allowed.
    pub fn allows_extrapolation(&self) -> bool {
        self.curve.extrapolates
    }

    /// The price at `x`. Refused by 12 where `x` is not a number, by 13 where it is outside the knots and such places are not allowed, and
    /// by 21 where the price is infinite or not a number.
    pub fn value(&self, x: f64) -> Result<f64, Refusal> {
        lent::value(&self.knots, &self.curve, &self.tags, &self.slots, x)
    }

    /// The total of all prices up to `x`, refused in the same way.
    pub fn primitive(&self, x: f64) -> Result<f64, Refusal> {
        lent::primitive(&self.knots, &self.curve, &self.tags, &self.slots, x)
    }

    /// The price at each of `xs`, into the first entries of `answers`; all or nothing ([`lent::values`]), and where it is nothing, which of
    /// them was refused first.
    ///
    /// ```
    /// use havgrunel::{ConvexMonotone, Refusal};
    ///
    /// // The second month traded at 0, and has no price at its first knot.
    /// let curve = ConvexMonotone::gas().interpolate(&[0.0, 1.0, 2.0, 3.0], &[0.0, 2.0, 0.0, 2.0])?;
    /// let mut prices = [-1.0; 3];
    /// let refused = curve.values(&[0.5, 1.0, 1.5], &mut prices).unwrap_err();
    /// assert_eq!((refused.refusal, refused.query), (Refusal::NotFinite, Some(1)));
    /// assert_eq!(prices, [-1.0; 3]);
    /// curve.values(&[0.5, 1.5], &mut prices)?;
    /// # Ok::<(), Refusal>(())
    /// ```
    pub fn values(&self, xs: &[f64], answers: &mut [f64]) -> Result<(), ManyRefused> {
        lent::values(
            &self.knots,
            &self.curve,
            &self.tags,
            &self.slots,
            xs,
            answers,
        )
    }

    /// The total of all prices up to each of `xs`, in the same way.
    pub fn primitives(&self, xs: &[f64], answers: &mut [f64]) -> Result<(), ManyRefused> {
        lent::primitives(
            &self.knots,
            &self.curve,
            &self.tags,
            &self.slots,
            xs,
            answers,
        )
    }

    /// The average price from `a` to `b`: the total up to `b` less the total up to `a`, divided by `b - a`, each step rounded once. Refused
    /// as [`primitive`](Self::primitive) is at `a`, then as it is at `b`, both short of 21; then by 18 unless `a` is below `b`; then by 21
    /// where the average itself is infinite or not a number.
    ///
    /// ```
    /// use havgrunel::ConvexMonotone;
    ///
    /// let curve = ConvexMonotone::new(0.0, 1.0, false).interpolate(&[0.0, 1.0, 2.0], &[0.0, 1.0, 3.0])?;
    /// assert_eq!(curve.strip(1.0, 2.0)?, 3.0);
    /// assert_eq!(curve.strip(0.5, 2.0)?, (4.0 - curve.primitive(0.5)?) / 1.5);
    /// assert_eq!(curve.strip(2.0, 1.0).unwrap_err().number(), 18);
    ///
    /// // The two halves of the second month.
    /// let mut halves = [0.0; 2];
    /// curve.strip_run(&[1.0, 1.5, 2.0], &mut halves)?;
    /// assert_eq!(halves, [curve.strip(1.0, 1.5)?, curve.strip(1.5, 2.0)?]);
    /// # Ok::<(), havgrunel::Refusal>(())
    /// ```
    pub fn strip(&self, a: f64, b: f64) -> Result<f64, Refusal> {
        lent::strip(&self.knots, &self.curve, &self.tags, &self.slots, a, b)
    }

    /// The average price from each of `starts` to the number beside it in `ends`, into the first entries of `answers`; all or nothing
    /// ([`lent::strips`]).
    pub fn strips(
        &self,
        starts: &[f64],
        ends: &[f64],
        answers: &mut [f64],
    ) -> Result<(), ManyRefused> {
        lent::strips(
            &self.knots,
            &self.curve,
            &self.tags,
            &self.slots,
            starts,
            ends,
            answers,
        )
    }

    /// The average price from each of `edges` to the next, in the same way: one number fewer than edges.
    pub fn strip_run(&self, edges: &[f64], answers: &mut [f64]) -> Result<(), ManyRefused> {
        lent::strip_run(
            &self.knots,
            &self.curve,
            &self.tags,
            &self.slots,
            edges,
            answers,
        )
    }

    /// The average price from knot `i` to knot `j`, both counted from 0, by two entries of the column: what [`strip`](Self::strip) tells from
    /// the one knot to the other. Refused by 11 where the curve has no column, then by 18 unless `i` is below `j` and `j` is a knot's
    /// number, then by 21 where the average itself is infinite or not a number.
    pub fn strip_between(&self, i: usize, j: usize) -> Result<f64, Refusal> {
        lent::strip_between(&self.knots, self.column().unwrap_or(&[]), i, j)
    }

    /// The total up to knot `i`, counted from 0, by the column: what [`primitive`](Self::primitive) tells there. Refused by 11 where the
    /// curve has no column or no such knot, then by 21 where the total is infinite or not a number.
    pub fn total_at(&self, i: usize) -> Result<f64, Refusal> {
        lent::column_entry(self.column().unwrap_or(&[]), i)
    }

    /// The method has no derivative, and this is always refused.
    pub fn derivative(&self, x: f64) -> Result<f64, Refusal> {
        lent::derivative(x)
    }

    /// The first knot.
    pub fn x_min(&self) -> f64 {
        self.knots[0]
    }

    /// The last knot.
    pub fn x_max(&self) -> f64 {
        self.knots[self.knots.len() - 1]
    }

    /// Whether `x` lies from the first knot to the last.
    pub fn is_in_range(&self, x: f64) -> bool {
        x >= self.x_min() && x <= self.x_max()
    }

    /// The knots, as they were given, or as the calendar has them.
    pub fn knots(&self) -> &[f64] {
        &self.knots
    }

    /// The price that the method puts at each knot.
    pub fn nodes(&self) -> &[f64] {
        &self.nodes
    }

    /// The total up to each knot, if the curve was built or grown with a column ([`ConvexMonotone::interpolate_with_column`],
    /// [`ConvexMonotone::local_interpolate_with_column`]). The numbers are whatever the formulas give; [`total_at`](Self::total_at) refuses
    /// one that is infinite or not a number.
    pub fn column(&self) -> Option<&[f64]> {
        self.column.as_deref()
    }

    /// How many sections there are: one less than knots.
    pub fn sections(&self) -> usize {
        self.curve.sections
    }

    /// The record of a section, counted from 0.
    pub fn record(&self, number: usize) -> Result<Record, Refusal> {
        let slots = lent::record(self.knots.len(), &self.slots, number)?;
        Ok(Record {
            tag: self.tags[number],
            slots,
        })
    }

    /// The record of each section in turn.
    pub fn records(&self) -> impl Iterator<Item = Record> + '_ {
        (0..self.sections()).map(|number| self.record(number).expect("each section has a record"))
    }

    /// The tail, which answers from the last knot on.
    pub fn tail(&self) -> Tail {
        self.curve.tail
    }
}

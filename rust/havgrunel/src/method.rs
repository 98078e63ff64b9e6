//! The settings of the method, and the curves that it makes.

use crate::lent::{self, Buffers, Sheet, SheetEnd};
use crate::{ConvexMonotoneInterpolation, Period, Refusal, ffi};

/// When a parabola is split, where prices are held above zero. Split, a period has two arms of a parabola that touches zero, and a
/// stretch of zero between them: so a month that is very cheap beside its neighbours stays at zero instead of falling below it.
///
/// The first two differ in periods whose parabola stays above zero unsplit, which mostly fall or rise steadily at quadraticity 0,
/// and in periods that average zero or less. They agree in every node and refusal; so does the third, but for the one refusal that
/// it adds. Without positivity nothing is split, and all three are the same.
#[derive(Clone, Copy, Debug, PartialEq, Eq, Default)]
pub enum Split {
    /// The rule of the original, bit for bit. Its test is not exact: it also splits periods that stay well above zero, and these then
    /// hold less than they traded at.
    #[default]
    Original = 0,
    /// Only where the original splits and the two arms together are no longer than the period, so that a split parabola keeps the
    /// period's average but for rounding. How long they are is a ratio, of the average to the one at which a parabola with the same
    /// ends touches zero: it must be above 0 and at most 1.
    Careful = 1,
    /// For a strip that must neither fall below zero nor lose an average. As the careful rule, but its tests also hold where rounding
    /// lets the original's fail, as beside an end node of exactly 0. A period that traded at 0 is 0 throughout, and one that traded
    /// at next to nothing beside its neighbours is level at its average.
    ///
    /// Every average from the second on must be 0 or above: a table with one below 0 is refused by
    /// [`AverageBelowZero`](Refusal::AverageBelowZero), number 29. Over millions of strips with the monotonicity up to 0.99 and the
    /// largest average from 0.001 to 1e153, no price was below 0 by more than 1e-12 of the largest average, and no period off its
    /// own by more than 1e-11 of it, beside the rounding of the running total. With the monotonicity nearer to 1 more of an average
    /// is lost by whatever rule.
    Safe = 2,
}

impl Split {
    /// The number by which the library knows it.
    pub(crate) fn number(self) -> u8 {
        self as u8
    }
}

/// The method with its settings: how much of each section is a parabola, how monotone the rest is, and whether prices are held
/// above zero; and by [`with_split`](ConvexMonotone::with_split) how that is done. Any numbers are taken; building a curve refuses
/// those outside 0 to 1.
#[derive(Clone, Copy, Debug, PartialEq)]
pub struct ConvexMonotone {
    pub(crate) quadraticity: f64,
    pub(crate) monotonicity: f64,
    pub(crate) force_positive: bool,
    pub(crate) split: Split,
}

impl ConvexMonotone {
    /// The method with these settings, which splits as the original does.
    pub fn new(quadraticity: f64, monotonicity: f64, force_positive: bool) -> Self {
        ConvexMonotone {
            quadraticity,
            monotonicity,
            force_positive,
            split: Split::Original,
        }
    }

    /// The gas default: quadraticity 0.3, monotonicity 0.7 and positivity on, splitting as the original does. These are the settings
    /// of the original's own `Default`; those of ours have positivity off.
    ///
    /// ```
    /// use havgrunel::{ConvexMonotone, Split};
    ///
    /// assert_eq!(ConvexMonotone::gas(), ConvexMonotone::new(0.3, 0.7, true));
    /// assert_eq!(ConvexMonotone::default(), ConvexMonotone::new(0.3, 0.7, false));
    ///
    /// // A cheap first month: by the default its price falls below zero, by the gas default with the safe split no price does.
    /// let (x, y) = ([0.0, 28.0, 56.0, 85.0], [0.0, 0.62, 59.03, 47.69]);
    /// let start = |method: ConvexMonotone| method.interpolate(&x, &y)?.value(0.0);
    /// assert!(start(ConvexMonotone::default())? < -13.0);
    /// assert_eq!(start(ConvexMonotone::gas().with_split(Split::Safe))?, 0.0);
    /// # Ok::<(), havgrunel::Refusal>(())
    /// ```
    pub fn gas() -> Self {
        ConvexMonotone::new(
            ffi::gas_quadraticity(),
            ffi::gas_monotonicity(),
            ffi::gas_positivity(),
        )
    }

    /// The same settings, splitting by this rule. Without positivity nothing is split, and the rule makes no difference: that is so
    /// of [`default`](ConvexMonotone::default). Curves of all rules are asked alike, and a curve may grow from one of another
    /// rule; but sheets of one table must all have the same.
    ///
    /// Three falling months, of which the second traded at 3. By the original's rule it is split, although it goes from 4 to 2, and
    /// holds too little:
    ///
    /// ```
    /// use havgrunel::{ConvexMonotone, Split};
    ///
    /// let (x, y) = ([0.0, 1.0, 2.0, 3.0], [0.0, 5.0, 3.0, 1.0]);
    /// let method = ConvexMonotone::new(0.0, 0.7, true);
    /// let careful = method.with_split(Split::Careful);
    ///
    /// // What the second month's section adds to the total of 5 before it.
    /// let second = method.interpolate(&x, &y)?.record(1)?;
    /// assert!(second.primitive(2.0)? - 5.0 < 2.4);
    /// let second = careful.interpolate(&x, &y)?.record(1)?;
    /// assert_eq!(second.primitive(2.0)? - 5.0, 3.0);
    ///
    /// // Nothing else was asked for, so this is the method as it was.
    /// assert_eq!(method, method.with_split(Split::Original));
    /// # Ok::<(), havgrunel::Refusal>(())
    /// ```
    pub fn with_split(self, split: Split) -> Self {
        ConvexMonotone { split, ..self }
    }

    /// The curve of a table: rising knots `x`, and in `y` the average of the period that ends at each. The first average is
    /// not read, but must be finite.
    pub fn interpolate(
        &self,
        x: &[f64],
        y: &[f64],
    ) -> Result<ConvexMonotoneInterpolation, Refusal> {
        ConvexMonotoneInterpolation::built(x.to_vec(), y, *self)
    }

    /// The curve of the delivery periods from one month to another, both of them delivered: what [`interpolate`](Self::interpolate)
    /// makes of the knots that [`month_knots`](crate::month_knots) tells. `y` has an average for each knot as there: the first is not
    /// read, but must be finite. Refused by 19 where the months are not whole periods, then as `interpolate` is.
    ///
    /// ```
    /// use havgrunel::{ConvexMonotone, Period, Refusal, month, month_knots};
    ///
    /// // The fourth quarter of 2026 by its months.
    /// let (first, last) = (month(2026, 10), month(2026, 12));
    /// let y = [0.0, 31.0, 33.5, 36.25];
    /// let method = ConvexMonotone::gas();
    /// let curve = method.interpolate_months(first, last, Period::Month, &y)?;
    /// assert_eq!(curve.knots(), [9770.0, 9801.0, 9831.0, 9862.0]);
    /// assert_eq!(curve.nodes(), method.interpolate(&month_knots(first, last, Period::Month)?, &y)?.nodes());
    ///
    /// // What November holds is what it traded at.
    /// assert!((curve.strip(9801.0, 9831.0)? - 33.5).abs() < 1.0e-12);
    ///
    /// let refused = method.interpolate_months(first, last, Period::Year, &y);
    /// assert_eq!(refused.err(), Some(Refusal::MonthsNotPeriods));
    /// # Ok::<(), Refusal>(())
    /// ```
    pub fn interpolate_months(
        &self,
        first: i64,
        last: i64,
        period: Period,
        y: &[f64],
    ) -> Result<ConvexMonotoneInterpolation, Refusal> {
        ConvexMonotoneInterpolation::built_by_months(first, last, period, y, *self)
    }

    /// The curve that [`interpolate`](Self::interpolate) makes, and beside it its [`column`](ConvexMonotoneInterpolation::column): the total up
    /// to each knot, as [`primitive`](ConvexMonotoneInterpolation::primitive) answers it there. A strip between two knots then reads two
    /// entries of it.
    ///
    /// ```
    /// use havgrunel::{ConvexMonotone, Refusal};
    ///
    /// let (x, y) = ([0.0, 1.0, 2.0], [0.0, 1.0, 3.0]);
    /// let method = ConvexMonotone::new(0.0, 1.0, false);
    /// let curve = method.interpolate_with_column(&x, &y)?;
    /// assert_eq!(curve.column(), Some(&[0.0, 1.0, 4.0][..]));
    /// assert_eq!(curve.strip_between(0, 2)?, 2.0);
    /// assert_eq!(curve.strip_between(1, 2)?, curve.strip(1.0, 2.0)?);
    /// assert_eq!(curve.strip_between(1, 3), Err(Refusal::StripEndsNotRising));
    ///
    /// let without = method.interpolate(&x, &y)?;
    /// assert_eq!(without.column(), None);
    /// assert_eq!(without.strip_between(0, 2), Err(Refusal::BufferTooShort));
    /// # Ok::<(), havgrunel::Refusal>(())
    /// ```
    pub fn interpolate_with_column(
        &self,
        x: &[f64],
        y: &[f64],
    ) -> Result<ConvexMonotoneInterpolation, Refusal> {
        ConvexMonotoneInterpolation::built_with_column(x.to_vec(), y, *self)
    }

    /// The curve of a table, built in sheets that end at the cuts: inner knots, counted from 0, each above the one before. It is
    /// the curve that [`interpolate`](Self::interpolate) makes, bit for bit, and has no column.
    ///
    /// ```
    /// use havgrunel::ConvexMonotone;
    ///
    /// let (x, y) = ([0.0, 1.0, 2.0, 4.0], [0.0, 1.0, 3.0, 2.0]);
    /// let method = ConvexMonotone::default();
    /// let curve = method.interpolate_in_sheets(&x, &y, &[1, 2])?;
    /// assert_eq!(curve.nodes(), method.interpolate(&x, &y)?.nodes());
    /// # Ok::<(), havgrunel::Refusal>(())
    /// ```
    pub fn interpolate_in_sheets(
        &self,
        x: &[f64],
        y: &[f64],
        cuts: &[usize],
    ) -> Result<ConvexMonotoneInterpolation, Refusal> {
        ConvexMonotoneInterpolation::built_in_sheets(x.to_vec(), y, *self, cuts)
    }

    /// One sheet of a table, written into its place in the buffers of the whole, as [`lent::sheet`] does: for a table whose
    /// sheets are built in different places, or not all at once.
    pub fn sheet(
        &self,
        x: &[f64],
        y: &[f64],
        sheet: Sheet,
        buffers: Buffers<'_>,
    ) -> Result<SheetEnd, Refusal> {
        lent::sheet(x, y, *self, sheet, buffers)
    }

    /// The next curve of a table that grows by a point at a time; its last period is constant until there are `final_size`
    /// points. With `localisation` + 1 points the table stands alone. After that it goes on where the sections that it keeps of
    /// `prev` ended.
    pub fn local_interpolate(
        &self,
        x: &[f64],
        y: &[f64],
        localisation: usize,
        prev: Option<&ConvexMonotoneInterpolation>,
        final_size: usize,
    ) -> Result<ConvexMonotoneInterpolation, Refusal> {
        ConvexMonotoneInterpolation::grown(x.to_vec(), y, *self, localisation, prev, final_size)
    }

    /// The curve that [`local_interpolate`](Self::local_interpolate) makes, with its column. `prev` may be a curve with or without one.
    pub fn local_interpolate_with_column(
        &self,
        x: &[f64],
        y: &[f64],
        localisation: usize,
        prev: Option<&ConvexMonotoneInterpolation>,
        final_size: usize,
    ) -> Result<ConvexMonotoneInterpolation, Refusal> {
        ConvexMonotoneInterpolation::grown_with_column(
            x.to_vec(),
            y,
            *self,
            localisation,
            prev,
            final_size,
        )
    }
}

impl Default for ConvexMonotone {
    /// The settings of the library where nothing else is asked for: quadraticity 0.3, monotonicity 0.7 and positivity off, splitting
    /// as the original does. The original's own has positivity on: that is [`gas`](ConvexMonotone::gas).
    fn default() -> Self {
        ConvexMonotone::new(
            ffi::default_quadraticity(),
            ffi::default_monotonicity(),
            ffi::default_positivity(),
        )
    }
}

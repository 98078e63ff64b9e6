//! The same calls over the caller's own buffers, with nothing allocated.
//!
//! A curve of n points takes n nodes, n - 1 tags and [`SLOTS`] slots for each tag; longer buffers are as good, and what lies
//! beyond is not touched. A refused call has written nothing.

use crate::{ConvexMonotone, ManyRefused, Refusal, SLOTS, ffi};

mod months;

pub use months::{build_months, month_knots};

/// Where a curve is written.
#[derive(Debug)]
pub struct Buffers<'a> {
    /// The price that the method puts at each knot.
    pub nodes: &'a mut [f64],
    /// A tag for each section.
    pub tags: &'a mut [u16],
    /// The numbers of each section's record, in a row.
    pub slots: &'a mut [f64],
}

/// The tail of a curve: the three numbers that answer from the last knot on.
#[derive(Clone, Copy, Debug, PartialEq)]
pub struct Tail {
    /// The price.
    pub value: f64,
    /// The total where it starts.
    pub total: f64,
    /// Where it starts.
    pub from: f64,
}

/// What a curve is beside its knots and records.
#[derive(Clone, Copy, Debug, PartialEq)]
pub struct Curve {
    /// How many sections it has.
    pub sections: usize,
    /// Whether a constant last period was asked for.
    pub held: bool,
    /// Whether places outside the knots are allowed; off in a new curve.
    pub extrapolates: bool,
    /// Its tail, which answers from the last knot on.
    pub tail: Tail,
}

/// The sections that are kept of a curve that grows, and the node on which the last of them ended.
#[derive(Clone, Copy, Debug, PartialEq)]
pub struct Seam {
    /// How many sections are kept.
    pub count: usize,
    /// Where the last of them ended.
    pub node: f64,
}

/// The curve that a table grows from.
#[derive(Clone, Copy, Debug)]
pub struct Previous<'a> {
    /// How many sections it has.
    pub sections: usize,
    /// Whether its last period was held.
    pub held: bool,
    /// Its tags, as they were written.
    pub tags: &'a [u16],
    /// Its slots, as they were written.
    pub slots: &'a [f64],
}

/// What a sheet is handed beside its part of the table.
#[derive(Clone, Copy, Debug, PartialEq)]
pub struct Sheet {
    /// The node at its first knot, if the table was cut there.
    pub left: Option<f64>,
    /// The node at its last knot, if the table was cut there.
    pub right: Option<f64>,
    /// The total before it.
    pub start: f64,
    /// The number of its first knot in the whole, counted from 0.
    pub place: usize,
}

/// What a sheet answers.
#[derive(Clone, Copy, Debug, PartialEq)]
pub struct SheetEnd {
    /// The total after it, where the next sheet starts.
    pub total: f64,
    /// The curve's tail; none where another sheet goes on from there.
    pub tail: Option<Tail>,
}

/// The answers of a build as they come back.
struct Told {
    sections: [usize; 1],
    tail: [f64; 3],
}

impl Told {
    fn new() -> Told {
        Told {
            sections: [0],
            tail: [0.0; 3],
        }
    }

    fn curve(self, held: bool) -> Curve {
        let [sections] = self.sections;
        let [value, total, from] = self.tail;
        Curve {
            sections,
            held,
            extrapolates: false,
            tail: Tail { value, total, from },
        }
    }
}

/// Builds the curve of a table. `hold` asks for a constant last period, and a seam gives the node at its count. Refused in the
/// order 1 to 8, 10, 11.
pub fn build(
    knots: &[f64],
    averages: &[f64],
    method: ConvexMonotone,
    hold: bool,
    seam: Option<Seam>,
    buffers: Buffers<'_>,
) -> Result<Curve, Refusal> {
    let mut told = Told::new();
    Refusal::told(ffi::build(
        knots,
        averages,
        method,
        hold,
        seam,
        buffers,
        &mut told.sections,
        &mut told.tail,
    ))?;
    Ok(told.curve(hold))
}

/// Builds the next curve of a table that grows, as [`ConvexMonotone::local_interpolate`] does. Past the first window refused by
/// 9, then 15 for the previous curve; then as a build is.
pub fn grow(
    knots: &[f64],
    averages: &[f64],
    method: ConvexMonotone,
    localisation: usize,
    previous: Option<Previous<'_>>,
    final_size: usize,
    buffers: Buffers<'_>,
) -> Result<Curve, Refusal> {
    let mut told = Told::new();
    Refusal::told(ffi::grow(
        knots,
        averages,
        method,
        localisation,
        final_size,
        previous,
        buffers,
        &mut told.sections,
        &mut told.tail,
    ))?;
    Ok(told.curve(knots.len() != final_size))
}

/// Builds the curve of a table as [`build`] does, and writes its column: the total up to each knot, as [`primitive`] answers it there, into
/// the first entries of `column`. Refused as [`build`] is; a `column` that is shorter than the knots is an 11 as well.
pub fn build_with_column(
    knots: &[f64],
    averages: &[f64],
    method: ConvexMonotone,
    hold: bool,
    seam: Option<Seam>,
    buffers: Buffers<'_>,
    column: &mut [f64],
) -> Result<Curve, Refusal> {
    let mut told = Told::new();
    Refusal::told(ffi::build_with_column(
        knots,
        averages,
        method,
        hold,
        seam,
        buffers,
        &mut told.sections,
        &mut told.tail,
        column,
    ))?;
    Ok(told.curve(hold))
}

/// Builds the next curve of a table that grows as [`grow`] does, and its column as [`build_with_column`] does, refused as [`grow`] is; a
/// `column` that is shorter than the knots is an 11 as well.
#[allow(clippy::too_many_arguments)]
pub fn grow_with_column(
    knots: &[f64],
    averages: &[f64],
    method: ConvexMonotone,
    localisation: usize,
    previous: Option<Previous<'_>>,
    final_size: usize,
    buffers: Buffers<'_>,
    column: &mut [f64],
) -> Result<Curve, Refusal> {
    let mut told = Told::new();
    Refusal::told(ffi::grow_with_column(
        knots,
        averages,
        method,
        localisation,
        final_size,
        previous,
        buffers,
        &mut told.sections,
        &mut told.tail,
        column,
    ))?;
    Ok(told.curve(knots.len() != final_size))
}

/// Builds one sheet of a table: a part of its knots and averages, written into its place in the buffers of the whole. Sheets that
/// are handed the whole's nodes at their cuts ([`inner_node`]) and the totals before them leave what a build of the whole leaves,
/// in whatever order they are built. Refused in the order 16, 1 to 7, 10, 11.
///
/// [`inner_node`]: crate::inner_node
pub fn sheet(
    knots: &[f64],
    averages: &[f64],
    method: ConvexMonotone,
    sheet: Sheet,
    buffers: Buffers<'_>,
) -> Result<SheetEnd, Refusal> {
    let mut answer = [0.0; 4];
    Refusal::told(ffi::sheet(
        knots,
        averages,
        method,
        sheet,
        buffers,
        &mut answer,
    ))?;
    let [after, value, total, from] = answer;
    let tail = Tail { value, total, from };
    Ok(SheetEnd {
        total: after,
        tail: sheet.right.is_none().then_some(tail),
    })
}

/// Builds the curve of a table in sheets that end at the cuts: inner knots, counted from 0, each above the one before. What comes
/// back and is written is what [`build`] makes with no held period and no seam. Refused by 28, then as a build is.
pub fn build_in_sheets(
    knots: &[f64],
    averages: &[f64],
    method: ConvexMonotone,
    cuts: &[usize],
    buffers: Buffers<'_>,
) -> Result<Curve, Refusal> {
    let mut told = Told::new();
    Refusal::told(ffi::build_in_sheets(
        knots,
        averages,
        method,
        cuts,
        buffers,
        &mut told.sections,
        &mut told.tail,
    ))?;
    Ok(told.curve(false))
}

/// The price at `x`. Refused in the order 4, 5, 7, 10, 11, 12, 13, 15, 21, the last where the price is infinite or not a number.
pub fn value(
    knots: &[f64],
    curve: &Curve,
    tags: &[u16],
    slots: &[f64],
    x: f64,
) -> Result<f64, Refusal> {
    let mut answer = [0.0];
    Refusal::told(ffi::value(knots, tags, slots, curve, x, &mut answer))?;
    Ok(answer[0])
}

/// The total of all prices up to `x`, refused as [`value`] is.
pub fn primitive(
    knots: &[f64],
    curve: &Curve,
    tags: &[u16],
    slots: &[f64],
    x: f64,
) -> Result<f64, Refusal> {
    let mut answer = [0.0];
    Refusal::told(ffi::primitive(knots, tags, slots, curve, x, &mut answer))?;
    Ok(answer[0])
}

/// The price at each of `xs`, into the first entries of `answers`, each as [`value`] tells it. The knots are checked once for all, and
/// `xs` that rise cost a step each. Refused in the order 4, 5, 7, 10, 11, which also tells that `answers` is shorter than `xs`; then by
/// 12, 13, 15, 21 of the first `x` that is refused, with its place in `xs`, and then nothing is written.
pub fn values(
    knots: &[f64],
    curve: &Curve,
    tags: &[u16],
    slots: &[f64],
    xs: &[f64],
    answers: &mut [f64],
) -> Result<(), ManyRefused> {
    let told = ffi::values(knots, tags, slots, curve, xs, answers);
    ManyRefused::told(told, xs.len())
}

/// The total of all prices up to each of `xs`, refused as [`values`] is.
pub fn primitives(
    knots: &[f64],
    curve: &Curve,
    tags: &[u16],
    slots: &[f64],
    xs: &[f64],
    answers: &mut [f64],
) -> Result<(), ManyRefused> {
    let told = ffi::primitives(knots, tags, slots, curve, xs, answers);
    ManyRefused::told(told, xs.len())
}

/// The average price from `a` to `b`: the total up to `b` less the total up to `a`, divided by `b - a`, each step rounded once. The knots are
/// checked once for both ends. Refused in the order 4, 5, 7, 10, 11, 12, 13, 15 for `a`; then 12, 13, 15 for `b`; then 18 unless `a` is
/// below `b`; then 21 where the average itself is infinite or not a number, whatever the two totals are.
pub fn strip(
    knots: &[f64],
    curve: &Curve,
    tags: &[u16],
    slots: &[f64],
    a: f64,
    b: f64,
) -> Result<f64, Refusal> {
    let mut answer = [0.0];
    Refusal::told(ffi::strip(knots, tags, slots, curve, a, b, &mut answer))?;
    Ok(answer[0])
}

/// The average price from each of `starts` to the number beside it in `ends`, into the first entries of `answers`, each as [`strip`] tells
/// it. Refused by 1 where there are not as many `ends` as `starts`; then in the order 4, 5, 7, 10, 11, which also tells that `answers` is
/// shorter than these; then as the first strip is that is refused, with its place, and then nothing is written.
pub fn strips(
    knots: &[f64],
    curve: &Curve,
    tags: &[u16],
    slots: &[f64],
    starts: &[f64],
    ends: &[f64],
    answers: &mut [f64],
) -> Result<(), ManyRefused> {
    let told = ffi::strips(knots, tags, slots, curve, starts, ends, answers);
    ManyRefused::told(told, starts.len())
}

/// The average price from each of `edges` to the next, in the same way: one number fewer than edges, and none where there is no edge. Each
/// edge is asked once.
pub fn strip_run(
    knots: &[f64],
    curve: &Curve,
    tags: &[u16],
    slots: &[f64],
    edges: &[f64],
    answers: &mut [f64],
) -> Result<(), ManyRefused> {
    let told = ffi::strip_run(knots, tags, slots, curve, edges, answers);
    ManyRefused::told(told, edges.len().saturating_sub(1))
}

/// The average price from knot `i` to knot `j`, both counted from 0: the difference of the two entries of the curve's column over that of
/// the two knots, each step rounded once. With the column that was written with the curve it is what [`strip`] tells from the one knot to
/// the other. Refused in the order 4, 5, 7, 10, 11 for a `column` that is shorter than the knots, 18 unless `i` is below `j` and `j` is a
/// knot's number, 21 where the average itself is infinite or not a number.
pub fn strip_between(knots: &[f64], column: &[f64], i: usize, j: usize) -> Result<f64, Refusal> {
    let mut answer = [0.0];
    Refusal::told(ffi::strip_between(knots, column, i, j, &mut answer))?;
    Ok(answer[0])
}

/// The total up to knot `i`, counted from 0: entry `i` of the curve's column, which itself keeps its numbers by their bits, whatever they
/// are. Refused by 11 where the column has no such entry, then by 21 where the entry is infinite or not a number.
pub fn column_entry(column: &[f64], i: usize) -> Result<f64, Refusal> {
    let mut answer = [0.0];
    Refusal::told(ffi::column_entry(column, i, &mut answer))?;
    Ok(answer[0])
}

/// The method has no derivative, and this is always refused.
pub fn derivative(x: f64) -> Result<f64, Refusal> {
    // The library has no number to answer with: this is its own refusal.
    Err(Refusal::told(ffi::derivative(x))
        .err()
        .unwrap_or(Refusal::DerivativeAsked))
}

/// The slots of one section, counted from 0. Refused in the order 4, 10, 11, 15.
pub fn record(points: usize, slots: &[f64], number: usize) -> Result<[f64; SLOTS], Refusal> {
    let mut into = [0.0; SLOTS];
    Refusal::told(ffi::record(points, slots, number, &mut into))?;
    Ok(into)
}

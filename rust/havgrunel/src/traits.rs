//! The traits by which code that is generic over interpolations knows a curve. Every method is there on the types themselves
//! too, so a caller that names the types needs none of these.

use crate::{ConvexMonotone, ConvexMonotoneInterpolation, Refusal};

/// A curve that can be asked for values.
pub trait Interpolation {
    /// The value at `x`.
    fn value(&self, x: f64) -> Result<f64, Refusal>;

    /// The slope at `x`.
    fn derivative(&self, x: f64) -> Result<f64, Refusal>;

    /// The total of all values up to `x`.
    fn primitive(&self, x: f64) -> Result<f64, Refusal>;

    /// The first knot.
    fn x_min(&self) -> f64;

    /// The last knot.
    fn x_max(&self) -> f64;

    /// Whether `x` lies from the first knot to the last.
    fn is_in_range(&self, x: f64) -> bool;
}

/// What makes a curve of a table.
pub trait Interpolator {
    /// The curve that is made.
    type Output: Interpolation;

    /// Whether every value depends on all of the table.
    const GLOBAL: bool = false;

    /// The curve of this table.
    fn interpolate(&self, x: &[f64], y: &[f64]) -> Result<Self::Output, Refusal>;

    /// The fewest points that a table can have.
    fn required_points(&self) -> usize {
        2
    }
}

/// What makes a curve of a table that grows by a point at a time.
pub trait LocalInterpolator: Interpolator {
    /// How many of a window's points carry no number of their own.
    const DATA_SIZE_ADJUSTMENT: usize = 0;

    /// The next curve, which goes on from `prev`.
    fn local_interpolate(
        &self,
        x: &[f64],
        y: &[f64],
        localisation: usize,
        prev: Option<&Self::Output>,
        final_size: usize,
    ) -> Result<Self::Output, Refusal>;
}

impl Interpolation for ConvexMonotoneInterpolation {
    fn value(&self, x: f64) -> Result<f64, Refusal> {
        ConvexMonotoneInterpolation::value(self, x)
    }

    fn derivative(&self, x: f64) -> Result<f64, Refusal> {
        ConvexMonotoneInterpolation::derivative(self, x)
    }

    fn primitive(&self, x: f64) -> Result<f64, Refusal> {
        ConvexMonotoneInterpolation::primitive(self, x)
    }

    fn x_min(&self) -> f64 {
        ConvexMonotoneInterpolation::x_min(self)
    }

    fn x_max(&self) -> f64 {
        ConvexMonotoneInterpolation::x_max(self)
    }

    fn is_in_range(&self, x: f64) -> bool {
        ConvexMonotoneInterpolation::is_in_range(self, x)
    }
}

impl Interpolator for ConvexMonotone {
    type Output = ConvexMonotoneInterpolation;

    const GLOBAL: bool = true;

    fn interpolate(&self, x: &[f64], y: &[f64]) -> Result<ConvexMonotoneInterpolation, Refusal> {
        ConvexMonotone::interpolate(self, x, y)
    }
}

impl LocalInterpolator for ConvexMonotone {
    // The first average is not read.
    const DATA_SIZE_ADJUSTMENT: usize = 1;

    fn local_interpolate(
        &self,
        x: &[f64],
        y: &[f64],
        localisation: usize,
        prev: Option<&ConvexMonotoneInterpolation>,
        final_size: usize,
    ) -> Result<ConvexMonotoneInterpolation, Refusal> {
        ConvexMonotone::local_interpolate(self, x, y, localisation, prev, final_size)
    }
}

//! The original with nothing behind its text: what a benchmark should run, and
//! what the probed copy is held against.

use crate::math::interpolations::convexmonotone::{ConvexMonotone, ConvexMonotoneInterpolation};
use crate::math::interpolations::{Interpolation, Interpolator};
use crate::{Refusal, Settings};

/// A curve of the bare text.
pub struct Curve(ConvexMonotoneInterpolation);

fn method(settings: &Settings) -> ConvexMonotone {
    ConvexMonotone::new(
        settings.quadraticity,
        settings.monotonicity,
        settings.positivity,
    )
}

pub fn build(settings: &Settings, x: &[f64], y: &[f64]) -> Result<Curve, Refusal> {
    Ok(Curve(method(settings).interpolate(x, y)?))
}

/// One step of growth.
pub fn grow(
    settings: &Settings,
    x: &[f64],
    y: &[f64],
    localisation: usize,
    previous: Option<&Curve>,
    final_size: usize,
) -> Result<Curve, Refusal> {
    Ok(Curve(method(settings).local_interpolate(
        x,
        y,
        localisation,
        previous.map(|curve| &curve.0),
        final_size,
    )?))
}

impl Curve {
    pub fn with_extrapolation(self, allow: bool) -> Curve {
        Curve(self.0.with_extrapolation(allow))
    }

    pub fn value(&self, x: f64) -> Result<f64, Refusal> {
        Ok(self.0.value(x)?)
    }

    pub fn primitive(&self, x: f64) -> Result<f64, Refusal> {
        Ok(self.0.primitive(x)?)
    }
}

//! The original module, compiled from its own text, asked for its answers.
//!
//! The text is found when the crate is built. Without it the crate still
//! builds: [`AT_HAND`] is then false, and making a section or a curve panics
//! with [`NOT_AT_HAND`].

pub mod answers;
pub mod asking;
mod knots;
mod nodes;
mod recipe;
mod record;
mod refusal;
mod settings;
mod strips;
mod totals;
pub mod words;

// The text names these under `crate::`.
#[cfg(original)]
use shim::{errors, fail, math, types};
#[cfg(original)]
mod shim;

#[cfg(original)]
pub mod plain;
#[cfg(original)]
use shim::math::interpolations::probed as judge;
#[cfg(original)]
pub use shim::math::interpolations::{Interpolation, Interpolator, LocalInterpolator};
#[cfg(original)]
pub use shim::math::interpolations::{convexmonotone, cubic};

#[cfg(not(original))]
mod absent;
#[cfg(not(original))]
use absent::judge;
#[cfg(not(original))]
pub use absent::plain;

// Compiled only behind the original's text; named so that formatting finds it.
#[cfg(false)]
mod probe {
    mod making;
    mod reading;
    mod telling;
}

pub use judge::{
    Curve, Section, build, build_with, combination_accepts, default_settings, grow, section,
    section_of,
};
pub use knots::knots;
pub use nodes::nodes;
pub use recipe::{Convex, Quadratic, Recipe};
pub use record::{FIELDS, Record, legal_tags};
pub use refusal::Refusal;
pub use settings::{Seam, Settings};
pub use strips::{column, strip};
pub use totals::totals;

/// Whether the original's text was found when this crate was built.
pub const AT_HAND: bool = cfg!(original);

/// What a program says when the text was not found.
pub const NOT_AT_HAND: &str = "The original is not at hand: set HAVGRUNEL_ORIGINAL to the folder \
     that holds its crates/libitofin/src/math/interpolations, and build again.";

/// The root as the original takes it.
pub fn root(a: f64) -> f64 {
    a.sqrt()
}

//! The rows, by what they measure.

use oracle::Settings;

pub mod build;
pub mod column;
pub mod growth;
pub mod months;
pub mod query;
pub mod root;
pub mod strip;

/// The sizes of table that are measured: a year of months, five years, a year of trading days and more, and the most that is taken.
pub const SIZES: [usize; 4] = [13, 61, 400, 4096];

/// The gas default, which is what the original takes when no settings are named.
const GAS: Settings = Settings {
    quadraticity: 0.3,
    monotonicity: 0.7,
    positivity: true,
};

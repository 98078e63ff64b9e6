//! What both sides take where no settings are named: the gas default of the library is the original's own default.

use havgrunel::ConvexMonotone;

/// What differs, if anything does. Neither setting is a zero or a NaN, so that equal numbers are equal bits.
pub fn compare() -> Option<String> {
    let theirs = oracle::default_settings();
    let ours = ConvexMonotone::gas();
    let same = ConvexMonotone::new(theirs.quadraticity, theirs.monotonicity, theirs.positivity);
    (ours != same).then(|| format!("the gas default is {ours:?}, and the original's is {same:?}"))
}

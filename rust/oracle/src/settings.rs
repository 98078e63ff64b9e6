//! What a build is told beside its table.

/// The three numbers of the method.
#[derive(Clone, Copy, Debug, PartialEq)]
pub struct Settings {
    pub quadraticity: f64,
    pub monotonicity: f64,
    pub positivity: bool,
}

/// What a grown curve takes over from the one before it.
#[derive(Clone, Copy, Debug, PartialEq)]
pub struct Seam {
    pub count: usize,
    pub f_next: f64,
}

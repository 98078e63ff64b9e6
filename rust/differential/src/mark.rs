//! What is told of a price and of a total: the number where it is finite, and else the refusal of one that is not.

/// The refusal of an answer that is not finite.
pub const NOT_FINITE: u8 = 21;

/// What the original answers at a place.
#[derive(Clone, Copy)]
pub struct Asked {
    pub value: f64,
    pub primitive: f64,
}

/// What is due of each.
#[derive(Clone, Copy)]
pub struct Rule {
    pub value: fn(Asked) -> Result<f64, u8>,
    pub primitive: fn(Asked) -> Result<f64, u8>,
}

/// The rule of document 02: each by its own number.
pub const RULE: Rule = Rule {
    value: |asked| told(asked.value),
    primitive: |asked| told(asked.primitive),
};

/// A number that is finite, or the refusal.
pub fn told(number: f64) -> Result<f64, u8> {
    if number.is_finite() {
        Ok(number)
    } else {
        Err(NOT_FINITE)
    }
}

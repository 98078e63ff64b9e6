//! Numbers as text: lower-case hexadecimal, a float by its bits.

use std::fmt::Write;

/// How every NaN is written.
pub const NAN: u64 = 0x7ff8_0000_0000_0000;

/// The bits of a float, one pattern for all NaNs.
pub fn bits(x: f64) -> u64 {
    if x.is_nan() { NAN } else { x.to_bits() }
}

/// Whether two floats are the same number, sign of zero included, any NaN
/// being the same as any other.
pub fn same(a: f64, b: f64) -> bool {
    bits(a) == bits(b)
}

/// Appends a space and a word without leading zeros.
pub fn push(line: &mut String, word: u64) {
    write!(line, " {word:x}").expect("a string takes what is written");
}

/// Appends floats, each as a space and its bits.
pub fn push_floats(line: &mut String, floats: &[f64]) {
    for &x in floats {
        push(line, bits(x));
    }
}

/// Reads a word of 1 to 16 lower-case hexadecimal digits.
pub fn read(word: &str) -> Option<u64> {
    let digits = matches!(word.len(), 1..=16)
        && word.bytes().all(|b| matches!(b, b'0'..=b'9' | b'a'..=b'f'));
    if digits {
        u64::from_str_radix(word, 16).ok()
    } else {
        None
    }
}

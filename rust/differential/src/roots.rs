//! Square roots, against the processor's.

use oracle::answers::rng::Rng;
use oracle::words::same;

use crate::draw;

const DIGITS: u64 = (1 << 52) - 1;
const SIGN: u64 = 1 << 63;
const INFINITY: u64 = 0x7ff << 52;

/// The number whose root is taken in this turn.
pub fn number(seed: u64, turn: u64) -> f64 {
    let rng = &mut draw::rng(!seed, turn);
    let bits = match turn % 8 {
        // Every exponent in turn, subnormal ones and those of no number too.
        0 => (turn / 8 % 2048) << 52 | rng.word() & DIGITS,
        1 => beside(rng, square),
        2 => beside(rng, halfway),
        // Subnormal ones of every length.
        3 => (rng.word() & DIGITS) >> rng.below(52),
        // Few bits, all bits, and what is no positive number.
        4 => match rng.below(8) {
            0 => rng.below(2048) << 52,
            1 => rng.below(2048) << 52 | DIGITS,
            2 => rng.below(2048) << 52 | DIGITS & !(1 << rng.below(52)),
            3 => rng.below(2048) << 52 | 1 << rng.below(52),
            4 => rng.pick(&[0, SIGN, INFINITY, SIGN | INFINITY, SIGN | 1, SIGN | DIGITS]),
            5 => SIGN | rng.word(),
            6 => INFINITY | rng.word(),
            _ => (rng.below(4097) as f64).to_bits(),
        },
        _ => rng.word() >> (turn / 8 % 2),
    };
    f64::from_bits(bits)
}

/// A number, or one of those around it.
fn beside(rng: &mut Rng, number: fn(&mut Rng) -> u64) -> u64 {
    let number = number(rng);
    number.wrapping_add(rng.below(4)).wrapping_sub(1)
}

/// The square of at most 26 bits, so that it is exact, at any even power of two.
fn square(rng: &mut Rng) -> u64 {
    let size = rng.below(26) + 1;
    let root = 1 << (size - 1) | rng.below(1 << (size - 1));
    let square = ((root * root) as f64).to_bits();
    square - (960 << 52) + ((2 * rng.below(965)) << 52)
}

/// The first number below the square of a point midway between two roots, where a root's last bit is decided.
fn halfway(rng: &mut Rng) -> u64 {
    let root = 1 << 52 | rng.word() & DIGITS;
    let twice = u128::from(2 * root + 1);
    let square = twice * twice;
    let dropped = 128 - square.leading_zeros() - 53;
    let digits = (square >> dropped) as u64;
    // An even step of the exponent keeps the digits of the root.
    let exponent = 1 + u64::from(dropped % 2) + 2 * rng.below(1022);
    exponent << 52 | digits & DIGITS
}

/// What differs at this number, if anything does.
pub fn compare(a: f64) -> Option<String> {
    let (mine, other) = (havgrunel::sqrt(a), oracle::root(a));
    (!same(mine, other)).then(|| {
        format!(
            "the root of {:016x} ({a:?}): the library has {:016x}, the processor {:016x}",
            a.to_bits(),
            mine.to_bits(),
            other.to_bits()
        )
    })
}

/// The roundest number near this one whose root still differs.
pub fn smallest(mut a: f64) -> f64 {
    let differs = |bits: u64| compare(f64::from_bits(bits)).is_some();
    loop {
        let bits = a.to_bits();
        let nearer = (bits & !INFINITY) | (1022 + (bits >> 52 & 1)) << 52;
        let fewer = (0..52).rev().map(|place| bits & !((1 << place) - 1));
        let cleared = (0..52).map(|place| bits & !(1 << place));
        let tried = [bits & !SIGN, nearer]
            .into_iter()
            .chain(fewer)
            .chain(cleared);
        match tried.filter(|&tried| tried != bits).find(|&b| differs(b)) {
            // Each step clears bits, or sets the exponent once and for all.
            Some(found) => a = f64::from_bits(found),
            None => return a,
        }
    }
}

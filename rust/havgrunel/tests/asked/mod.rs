//! Places to ask a curve at, and what its answers are compared by.

use havgrunel::{Answers, ManyRefused, Refusal, Section, Tail};
use oracle::answers::rng::Rng;

/// What stands in a buffer before a call.
pub const OLD: f64 = -123.25;

/// A place: at a knot, beside one, anywhere between the ends, seldom outside them, and most seldom not a number at all.
pub fn place(rng: &mut Rng, knots: &[f64]) -> f64 {
    let (first, last) = (knots[0], knots[knots.len() - 1]);
    let knot = knots[rng.below(knots.len() as u64) as usize];
    match rng.below(400) {
        0 => f64::NAN,
        1 => last + 1.0,
        2 => f64::NEG_INFINITY,
        3..=60 => knot,
        61..=90 => knot.next_up(),
        91..=120 => knot.next_down(),
        121..=130 => last,
        _ => rng.between(first, last),
    }
}

/// What the section that covers a place answers there by itself, finite or not: from the last knot on it is the tail.
pub fn covering(
    knots: &[f64],
    tail: Tail,
    section: impl Fn(usize) -> Section,
    x: f64,
) -> Result<Answers, Refusal> {
    let last = knots.len() - 1;
    if x >= knots[last] {
        let Tail { value, total, from } = tail;
        return Section::everywhere_constant(value, total, from).answers(x);
    }
    let above = knots[1..last].iter().position(|&knot| knot > x);
    section(above.unwrap_or(last - 1)).answers(x)
}

/// A number that is finite, or the refusal of one that is not.
pub fn finite(number: f64) -> Result<f64, Refusal> {
    if number.is_finite() {
        Ok(number)
    } else {
        Err(Refusal::NotFinite)
    }
}

/// What is due of many at once, by what is due of each: every number, or the first refusal and whose it is.
pub fn all(due: impl Iterator<Item = Result<f64, Refusal>>) -> Result<Vec<f64>, ManyRefused> {
    let placed = due.enumerate().map(|(place, due)| {
        due.map_err(|refusal| ManyRefused {
            refusal,
            query: Some(place),
        })
    });
    placed.collect()
}

/// What no single query is to blame for.
pub const NO_ROOM: ManyRefused = ManyRefused {
    refusal: Refusal::BufferTooShort,
    query: None,
};

/// That a call for many tells what `due` says of each, writes all of it or nothing, and nothing behind it.
pub fn all_or_nothing(
    due: impl Iterator<Item = Result<f64, Refusal>>,
    call: impl Fn(&mut [f64]) -> Result<(), ManyRefused>,
) -> Result<(), ManyRefused> {
    let due: Vec<Result<f64, Refusal>> = due.collect();
    let count = due.len();
    let due = all(due.into_iter());
    let mut answers = vec![OLD; count + 1];
    let told = call(&mut answers);
    assert_eq!(told, due.as_ref().map(|_| ()).map_err(|&refused| refused));
    let mut left = due.unwrap_or(vec![OLD; count]);
    left.push(OLD);
    assert_eq!(bits(&answers), bits(&left));
    // There is not room for all of them.
    if count > 0 {
        let mut answers = vec![OLD; count - 1];
        assert_eq!(call(&mut answers), Err(NO_ROOM));
        assert!(answers.iter().all(|&answer| answer == OLD));
    }
    told
}

/// Numbers by their bits, any NaN as one.
pub fn bits(numbers: &[f64]) -> Vec<u64> {
    numbers.iter().copied().map(oracle::words::bits).collect()
}

//! The file of answers that another program replays. It is the same on every
//! machine: the generator is seeded and takes exact steps only.

mod curves;
mod growth;
mod queries;
pub mod rng;
mod roots;
mod sections;
mod strips;
mod tables;
mod told;

use crate::asking::Asked;

/// Lines to be replayed, and what they hold.
pub struct Answers {
    pub lines: String,
    /// What was written and how many, in the order written.
    pub counts: Vec<(String, usize)>,
}

/// Two of three, others from turn to turn: each sort of case stays, with fewer of it.
fn thinned<T>(cases: Vec<T>, turn: usize) -> impl Iterator<Item = T> {
    let placed = cases.into_iter().enumerate();
    let kept = placed.filter(move |(place, _)| !(place + turn).is_multiple_of(3));
    kept.map(|(_, case)| case)
}

/// The settings that the original takes when none are named: a line `m`.
pub fn default() -> Answers {
    let lines = Asked::default().answer("default").expect("a request");
    Answers {
        lines,
        counts: vec![("defaults".to_string(), 1)],
    }
}

/// The roots: lines `r`.
pub fn roots() -> Answers {
    roots::write()
}

/// The sections: lines `s`, `t` and `x`.
///
/// Panics if a kind, split or not, could not be made to occur.
pub fn sections() -> Answers {
    sections::write()
}

/// The curves: lines `c`, `b`, `t`, `k`, `e`, `n`, `u`, `p` and `a`.
pub fn curves() -> Answers {
    curves::write()
}

/// The growths: lines `g`, `b`, `t`, `k`, `e`, `n`, `u`, `p`, `a` and `f`, and some `c`.
pub fn growth() -> Answers {
    growth::write()
}

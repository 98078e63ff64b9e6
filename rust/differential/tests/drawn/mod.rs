//! Whether the cases that the program draws show what a wrong rule differs in.

use differential::case::Case;
use differential::judge::Judge;
use differential::{draw, shrink};

/// That each judge, which stands behind the name of its wrong rule, differs in one of so many cases of this sort. The right judge finds all
/// of these right.
pub fn each_is_seen(cases: u64, mut wrong: Vec<(&str, Judge)>, sort: impl Fn(&Case) -> bool) {
    let mut seen = vec![None; wrong.len()];
    let mut right = Judge::default();
    for number in 0..cases {
        let case = draw::case(1, number);
        if !sort(&case) {
            continue;
        }
        assert!(shrink::judged(&mut right, &case).is_ok(), "case {number}");
        for ((_, judge), seen) in wrong.iter_mut().zip(&mut seen) {
            if seen.is_none() && shrink::judged(judge, &case).is_err() {
                *seen = Some(number);
            }
        }
        if seen.iter().all(Option::is_some) {
            println!("seen first in the cases {seen:?}");
            return;
        }
    }
    for ((name, _), seen) in wrong.iter().zip(seen) {
        assert!(seen.is_some(), "no case of {cases} sees this: {name}");
    }
}

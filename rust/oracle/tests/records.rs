//! The layout of a record, kind by kind, against numbers worked out by hand.
#![cfg(original)]

use std::collections::BTreeSet;

use oracle::{Convex, FIELDS, Quadratic, Recipe, Record, legal_tags, section, section_of, words};

/// The whole record: what stands in the two parts, and +0.0 elsewhere.
fn check(recipe: Recipe, tag: u16, weight: f64, quadratic: &[f64], other: &[f64]) {
    let mut slots = [0.0; FIELDS];
    slots[0] = weight;
    slots[1..][..quadratic.len()].copy_from_slice(quadratic);
    slots[13..][..other.len()].copy_from_slice(other);
    let wanted = Record { tag, slots };
    let seen = section(&recipe).record();
    assert!(seen.same(&wanted), "{seen:?} is not {wanted:?}");
}

const CONVEX: [f64; 7] = [1.0, 3.0, 2.0, 4.0, 2.0, 0.5, 10.0];
const FLAT: [f64; 7] = [1.0, 2.0, 2.0, 4.0, 2.0, 0.5, 10.0];
const FOUR: [f64; 8] = [1.0, 2.0, 2.0, 4.0, 2.0, 0.5, 10.0, -1.5];

/// Ends 6 and 6 with average 1 on 1..5.
const DIPS: [f64; 7] = [1.0, 5.0, 5.0, 5.0, 1.0, 0.5, 10.0];
const SPLIT: [f64; 11] = [1.0, 4.0, 4.0, 4.0, 2.0, 0.5, 10.0, -2.0, 0.5, 2.0, 4.0];

/// The first section of p2.
const RISING: [f64; 6] = [0.0, 1.0, 0.5, 2.0, 1.0, 0.0];
const RISEN: [f64; 7] = [0.0, 1.0, 1.5, -0.0, 0.5, 2.0, 0.0];

/// Ends 3 and 3 with average 0.5 on 1..5.
const LOW: [f64; 6] = [1.0, 5.0, 3.0, 3.0, 0.5, 10.0];
const CUT: [f64; 12] = [
    1.0, 2.0, 4.0, 5.0, 12.0, -12.0, 3.0, 10.0, 11.0, 3.0, 2.0, 0.5,
];

#[test]
fn constant_and_gradient() {
    let constant = Recipe::Constant([2.0, 5.0, 7.0]);
    check(constant, 0x0100, 0.0, &[], &[2.0, 5.0, 7.0]);
    let gradient = Recipe::Gradient([1.0, 10.0, 0.0, 2.0, 5.0]);
    check(gradient, 0x0200, 0.0, &[], &[1.0, 10.0, 0.0, 2.0, 5.0]);
}

#[test]
fn convex_parts() {
    let two = Recipe::Convex(Convex::Two(CONVEX));
    check(two, 0x0300, 0.0, &[], &FLAT);
    let three = Recipe::Convex(Convex::Three(CONVEX));
    check(three, 0x0400, 0.0, &[], &FLAT);
    let four = Recipe::Convex(Convex::Four(CONVEX));
    check(four, 0x0500, 0.0, &[], &FOUR);
    let min = Recipe::Convex(Convex::FourMin(CONVEX));
    check(min, 0x0600, 0.0, &[], &FOUR);
    let split = Recipe::Convex(Convex::FourMin(DIPS));
    check(split, 0x0680, 0.0, &[], &SPLIT);
}

#[test]
fn quadratic_parts() {
    let plain = Recipe::Quadratic(Quadratic::Plain(RISING));
    check(plain, 0x2000, 1.0, &RISEN, &[]);
    let [x, length, a, b, c, f_next, total] = RISEN;
    let unsplit = [x, 0.0, 0.0, 1.0, a, b, c, total, 0.0, f_next, length, 1.0];
    let min = Recipe::Quadratic(Quadratic::Min(RISING));
    check(min, 0x4000, 1.0, &unsplit, &[]);
    let split = Recipe::Quadratic(Quadratic::Min(LOW));
    check(split, 0x5000, 1.0, &CUT, &[]);
}

#[test]
fn combinations() {
    let both = |q, c| Recipe::Combination(0.25, q, c);
    let plain = both(Quadratic::Plain(RISING), Convex::Two(CONVEX));
    check(plain, 0x2300, 0.25, &RISEN, &FLAT);
    let split = both(Quadratic::Min(LOW), Convex::FourMin(DIPS));
    check(split, 0x5680, 0.25, &CUT, &SPLIT);
    // A weight that no build gives is still told as it is.
    let odd = Recipe::Combination(1.5, Quadratic::Plain(RISING), Convex::Three(CONVEX));
    check(odd, 0x2400, 1.5, &RISEN, &FLAT);
}

/// p5, p6 and p7, asked of the section itself.
#[test]
fn figures() {
    let low = [0.0, 1.0, 4.0, 1.0, 0.5, 0.0];
    let low = section(&Recipe::Quadratic(Quadratic::Min(low)));
    assert_eq!([0.25, 0.5, 1.0].map(|x| low.value(x)), [0.25, 0.0, 1.0]);
    let high = [0.0, 1.0, 4.0, 1.0, 3.0, 0.0];
    let high = section(&Recipe::Quadratic(Quadratic::Min(high)));
    assert_eq!(high.record().tag, 0x5000);
    assert_eq!(high.record().slots[12], 3.0);
    assert_eq!(high.value(0.75), 1.5625);
    let two = [0.0, 1.0, -1.0, 5.0, 2.0, 0.5, 0.0];
    let two = section(&Recipe::Convex(Convex::Two(two)));
    assert_eq!((two.value(0.75), two.f_next()), (2.5, 7.0));
}

/// Every kind tells a tag of its own, and a recipe reads back from its words.
#[test]
fn kinds_are_told_apart() {
    let quadratics = [Quadratic::Plain(RISING), Quadratic::Min(RISING)];
    let quadratics = quadratics.into_iter().chain([Quadratic::Min(LOW)]);
    let convex = [
        Convex::Two(DIPS),
        Convex::Three(DIPS),
        Convex::Four(DIPS),
        Convex::FourMin(CONVEX),
        Convex::FourMin(DIPS),
    ];
    let mut recipes = vec![Recipe::Constant([1.0; 3]), Recipe::Gradient([1.0; 5])];
    recipes.extend(convex.map(Recipe::Convex));
    for quadratic in quadratics {
        recipes.push(Recipe::Quadratic(quadratic));
        recipes.extend(convex.map(|part| Recipe::Combination(0.5, quadratic, part)));
    }
    let mut tags = Vec::new();
    for recipe in recipes {
        let record = section(&recipe).record();
        tags.push(record.tag);
        let mut line = String::new();
        recipe.push(&mut line);
        let read: Vec<u64> = line.split_whitespace().filter_map(words::read).collect();
        let again = Recipe::read(&read).expect("a recipe reads back");
        assert!(section(&again).record().same(&record));
        let back = section_of(&record).expect("a section's own record");
        assert!(back.record().same(&record));
    }
    assert_eq!(tags, legal_tags());
    assert_eq!(BTreeSet::from_iter(tags).len(), 25);
}

/// Any numbers can stand behind a legal tag, and they are read where they stand; no other tag is read.
#[test]
fn records_of_any_numbers_are_read() {
    let slots = std::array::from_fn(|place| f64::from(place as u32) - 7.5);
    let legal = legal_tags();
    for tag in 0..=u16::MAX {
        let record = Record { tag, slots };
        let Some(read) = section_of(&record) else {
            assert!(!legal.contains(&tag), "tag {tag:04x}");
            continue;
        };
        assert!(legal.contains(&tag), "tag {tag:04x}");
        let told = read.record();
        assert_eq!(told.tag, tag);
        // A slot is told as it was given, unused ones as 0; a weight is kept by a combination alone.
        for (place, (told, given)) in told.slots.into_iter().zip(slots).enumerate() {
            let unused = place == 0 || told == 0.0;
            assert!(told == given || unused, "tag {tag:04x}, slot {place}");
        }
        let combined = tag & 0xf000 != 0 && tag & 0x0f00 != 0;
        assert!(!combined || told.slots[0] == slots[0]);
    }
}

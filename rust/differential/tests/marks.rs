//! That the judge would see a library that tells a number that is not finite, or refuses one that is, or refuses it before all else: what
//! the library tells is found right by the rule that is due, and wrong by each other rule, on tables made for it and among the cases that
//! the program draws.

mod drawn;

use differential::case::{Case, Queries, Room, Strips, Table};
use differential::judge::Judge;
use differential::mark::{self, NOT_FINITE};
use differential::strip::{self, STRIP_ENDS_NOT_RISING, Strip};
use havgrunel::Split;
use oracle::Settings;

fn at_hand() -> bool {
    if !oracle::AT_HAND {
        eprintln!("{}", oracle::NOT_AT_HAND);
    }
    oracle::AT_HAND
}

/// A table of months by these averages, asked in the middle and at the knots of each, and beyond them, one by one, several at once and for
/// strips.
fn months(y: &[f64], positivity: bool) -> Case {
    let table = Table {
        settings: Settings {
            quadraticity: if positivity { 1.0 } else { 0.0 },
            monotonicity: 0.7,
            positivity,
        },
        split: Split::Original,
        hold: false,
        seam: None,
        x: (0..y.len() as u32).map(f64::from).collect(),
        y: y.to_vec(),
    };
    let halves: Vec<f64> = (0..2 * y.len() as u32 - 1)
        .map(|i| f64::from(i) / 2.0)
        .collect();
    let pairs = |xs: &[f64]| xs.windows(2).map(|ab| (ab[0], ab[1])).collect();
    let far = [-1.0, 0.0, 1.0, 9.0, 1.0e308];
    let mut strips = Strips {
        inside: pairs(&halves),
        anywhere: pairs(&far),
        between: vec![(0, 1), (1, 2), (0, 2)],
    };
    strips.anywhere.push((-1.0, 1.0));
    strips
        .inside
        .extend(halves.iter().flat_map(|&a| [(a, a), (a, -9.0)]));
    let queries = Queries {
        inside: halves,
        anywhere: far.to_vec(),
        breaks: false,
        strips,
    };
    Case::Build(table, Room::default(), queries)
}

/// Prices of infinite size, totals of infinite size, a price and a total that are no number, strips of two finite totals.
fn made() -> [Case; 7] {
    [
        months(&[0.0, 0.0, f64::MAX], false),
        months(&[0.0, 0.0, -f64::MAX], false),
        months(&[0.0, 2.0, 0.0, 2.0], true),
        months(&[0.0, f64::MAX], false),
        months(&[0.0, 1.7e308], false),
        months(&[0.0, 1.7e308, 1.7e308], false),
        months(&[0.0, 1.0e308, 1.0e308, 1.0e308], false),
    ]
}

/// A number that is let by where this holds, and refused where not.
fn by(number: f64, told: fn(f64) -> bool) -> Result<f64, u8> {
    if told(number) {
        Ok(number)
    } else {
        Err(NOT_FINITE)
    }
}

fn not_nan(number: f64) -> bool {
    !number.is_nan()
}

fn not_infinite(number: f64) -> bool {
    !number.is_infinite()
}

const OF_QUERIES: [(&str, mark::Rule); 9] = [
    (
        "an infinite price is let by",
        mark::Rule {
            value: |asked| by(asked.value, not_nan),
            ..mark::RULE
        },
    ),
    (
        "an infinite total is let by",
        mark::Rule {
            primitive: |asked| by(asked.primitive, not_nan),
            ..mark::RULE
        },
    ),
    (
        "only a NaN is caught",
        mark::Rule {
            value: |asked| by(asked.value, not_nan),
            primitive: |asked| by(asked.primitive, not_nan),
        },
    ),
    (
        "only infinities are caught",
        mark::Rule {
            value: |asked| by(asked.value, not_infinite),
            primitive: |asked| by(asked.primitive, not_infinite),
        },
    ),
    (
        "a price below every number is let by",
        mark::Rule {
            value: |asked| by(asked.value, |value| value < f64::INFINITY),
            ..mark::RULE
        },
    ),
    (
        "nothing is caught",
        mark::Rule {
            value: |asked| Ok(asked.value),
            primitive: |asked| Ok(asked.primitive),
        },
    ),
    (
        "a price is refused for its total, too",
        mark::Rule {
            value: |asked| mark::told(asked.primitive).and(mark::told(asked.value)),
            ..mark::RULE
        },
    ),
    (
        "a total is refused for its price, too",
        mark::Rule {
            primitive: |asked| mark::told(asked.value).and(mark::told(asked.primitive)),
            ..mark::RULE
        },
    ),
    (
        "the largest numbers are refused",
        mark::Rule {
            value: |asked| by(asked.value, |value| value.abs() < f64::MAX),
            ..mark::RULE
        },
    ),
];

/// What the strip's number is, where all else is accepted, let by where this holds of it.
fn strip_by(strip: &Strip, told: fn(f64) -> bool) -> Result<f64, u8> {
    match ((strip::RULE.strip)(strip), strip.number()) {
        (Ok(_) | Err(NOT_FINITE), Some(number)) => by(number, told),
        (refused, _) => refused,
    }
}

/// A total, refused where it is not finite.
fn end(total: Result<f64, u8>) -> Result<f64, u8> {
    total.and_then(mark::told)
}

const OF_STRIPS: [(&str, strip::Rule); 8] = [
    (
        "an infinite strip is let by",
        strip::Rule {
            strip: |strip| strip_by(strip, not_nan),
            ..strip::RULE
        },
    ),
    (
        "a strip that is no number is let by",
        strip::Rule {
            strip: |strip| strip_by(strip, not_infinite),
            ..strip::RULE
        },
    ),
    (
        "a strip is refused for its totals alone",
        strip::Rule {
            strip: |strip| {
                (strip::RULE.strip)(strip).or_else(|number| {
                    match (end(strip.from), end(strip.to)) {
                        (Ok(_), Ok(_)) if number == NOT_FINITE => Ok(strip.number().unwrap_or(0.0)),
                        _ => Err(number),
                    }
                })
            },
            ..strip::RULE
        },
    ),
    (
        "its first total before the second query",
        strip::Rule {
            strip: |strip| end(strip.from).and((strip::RULE.strip)(strip)),
            ..strip::RULE
        },
    ),
    (
        "its totals before its ends",
        strip::Rule {
            strip: |strip| match (strip::RULE.strip)(strip) {
                Err(STRIP_ENDS_NOT_RISING) => end(strip.from)
                    .and(end(strip.to))
                    .and(Err(STRIP_ENDS_NOT_RISING)),
                due => due,
            },
            ..strip::RULE
        },
    ),
    (
        "an infinite strip between places is let by",
        strip::Rule {
            between: |between| match ((strip::RULE.between)(between), between.number()) {
                (Err(NOT_FINITE), Some(number)) => by(number, not_nan),
                (due, _) => due,
            },
            ..strip::RULE
        },
    ),
    (
        "an infinite entry is let by",
        strip::Rule {
            read: |entry| by(entry, not_nan),
            ..strip::RULE
        },
    ),
    (
        "an entry that is no number is let by",
        strip::Rule {
            read: |entry| by(entry, not_infinite),
            ..strip::RULE
        },
    ),
];

/// Each wrong judge behind its name, anew.
fn wrong() -> Vec<(&'static str, Judge)> {
    let queries = OF_QUERIES.map(|(name, rule)| (name, Judge::marked_by(rule)));
    let strips = OF_STRIPS.map(|(name, rule)| (name, Judge::strips_by(rule)));
    queries.into_iter().chain(strips).collect()
}

#[test]
fn each_wrong_mark_is_seen() {
    if !at_hand() {
        return;
    }
    for case in &made() {
        let told = Judge::default().case(case).err().map(|found| found.told);
        assert_eq!(told, None, "{case}");
    }
    for (name, mut judge) in wrong() {
        let parts: Vec<&str> = made()
            .iter()
            .filter_map(|case| judge.case(case).err().map(|found| found.part))
            .collect();
        println!("{name}: {parts:?}");
        assert!(!parts.is_empty(), "{name}");
    }
}

/// The program draws what each wrong rule differs in: each is seen within so many cases.
#[test]
fn drawn_cases_see_each_wrong_mark() {
    if at_hand() {
        drawn::each_is_seen(8000, wrong(), |_| true);
    }
}

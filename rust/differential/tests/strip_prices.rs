//! That the judge would see a library whose strips or columns are wrong: what the library tells is found right by the rule that is due, and wrong by each
//! other rule, on a table made for it and among the cases that the program draws.

mod drawn;

use differential::case::{Case, Queries, Room, Strips, Table};
use differential::judge::Judge;
use differential::mark::told;
use differential::strip::{Between, Entry, RULE, Rule, STRIP_ENDS_NOT_RISING, Strip, two_entries};
use havgrunel::Split;
use oracle::Settings;

fn at_hand() -> bool {
    if !oracle::AT_HAND {
        eprintln!("{}", oracle::NOT_AT_HAND);
    }
    oracle::AT_HAND
}

/// A rule that is wrong, by its name.
type Wrong = (&'static str, Rule);

const fn strips(strip: fn(&Strip) -> Result<f64, u8>) -> Rule {
    Rule { strip, ..RULE }
}

const fn columns(entry: fn(&Entry) -> f64) -> Rule {
    Rule { entry, ..RULE }
}

const fn places(between: fn(&Between<'_>) -> Result<f64, u8>) -> Rule {
    Rule { between, ..RULE }
}

/// A strip that is priced so, and refused as is due.
fn priced(strip: &Strip, price: fn(&Strip, f64, f64) -> f64) -> Result<f64, u8> {
    (RULE.strip)(strip)?;
    told(price(strip, strip.from?, strip.to?))
}

/// What is due, where the ends are allowed that this allows, and for others priced all the same.
fn allowed(strip: &Strip, allow: fn(f64, f64) -> bool) -> Result<f64, u8> {
    let (from, to) = (strip.from?, strip.to?);
    if allow(strip.a, strip.b) {
        told((to - from) / (strip.b - strip.a))
    } else {
        Err(STRIP_ENDS_NOT_RISING)
    }
}

const OF_STRIPS: [Wrong; 11] = [
    (
        "the ends exchanged",
        strips(|strip| priced(strip, |strip, from, to| (from - to) / (strip.b - strip.a))),
    ),
    (
        "divided by the second end",
        strips(|strip| priced(strip, |strip, from, to| (to - from) / strip.b)),
    ),
    (
        "not divided",
        strips(|strip| priced(strip, |_, from, to| to - from)),
    ),
    (
        "one query for both ends",
        strips(|strip| priced(strip, |strip, _, _| 0.0 / (strip.b - strip.a))),
    ),
    (
        "each total divided by itself",
        strips(|strip| {
            priced(strip, |strip, from, to| {
                to / (strip.b - strip.a) - from / (strip.b - strip.a)
            })
        }),
    ),
    (
        "multiplied by the inverse of the length",
        strips(|strip| {
            priced(strip, |strip, from, to| {
                (to - from) * (1.0 / (strip.b - strip.a))
            })
        }),
    ),
    (
        "equal ends accepted",
        strips(|strip| allowed(strip, |a, b| a <= b)),
    ),
    (
        "falling ends accepted",
        strips(|strip| allowed(strip, |a, b| a != b)),
    ),
    (
        "the ends refused before the first query",
        strips(|strip| match strip {
            Strip { a, b, .. } if a < b => (RULE.strip)(strip),
            Strip {
                from: Err(number @ (4 | 5 | 7 | 10 | 11)),
                ..
            } => Err(*number),
            _ => Err(STRIP_ENDS_NOT_RISING),
        }),
    ),
    (
        "the ends refused before the second query",
        strips(|strip| match strip {
            Strip { a, b, .. } if a < b => (RULE.strip)(strip),
            _ => strip.from.and(Err(STRIP_ENDS_NOT_RISING)),
        }),
    ),
    (
        "the second query refused before the first",
        strips(|strip| strip.to.and((RULE.strip)(strip))),
    ),
];

const OF_COLUMNS: [Wrong; 4] = [
    (
        "the last entry by the last section",
        columns(|entry| match entry.is_last {
            true => entry.by_the_left,
            false => entry.total,
        }),
    ),
    (
        "each entry by the section that ends there",
        columns(|entry| match entry.is_last {
            true => entry.total,
            false => entry.by_the_left,
        }),
    ),
    ("running totals", columns(|entry| entry.running)),
    (
        "no last entry",
        columns(|entry| if entry.is_last { 0.0 } else { entry.total }),
    ),
];

/// What is due of other places, where these are refused as is due.
fn moved(between: &Between<'_>, i: usize, j: usize) -> Result<f64, u8> {
    two_entries(between)?;
    let &Between { knots, column, .. } = between;
    told((column[j] - column[i]) / (knots[j] - knots[i]))
}

const OF_PLACES: [Wrong; 5] = [
    (
        "the entry before the second place",
        places(|between| moved(between, between.i, between.j - 1)),
    ),
    (
        "the total up to the second place",
        places(|between| moved(between, 0, between.j)),
    ),
    (
        "a place past the last as the last",
        places(|between| {
            let j = between.j.min(between.knots.len() - 1);
            two_entries(&Between { j, ..*between })
        }),
    ),
    (
        "equal places accepted",
        places(|between| match between.i {
            i if i == between.j && i < between.knots.len() => told(f64::NAN),
            _ => two_entries(between),
        }),
    ),
    (
        "falling places accepted",
        places(|between| {
            let (i, j) = (between.i.min(between.j), between.i.max(between.j));
            two_entries(&Between { i, j, ..*between })
        }),
    ),
];

/// Three months of tenths, whose last section tells its last total otherwise than the tail, asked for a strip of each sort.
fn made() -> Case {
    let table = Table {
        settings: Settings {
            quadraticity: 0.3,
            monotonicity: 0.7,
            positivity: false,
        },
        split: Split::Original,
        hold: false,
        seam: None,
        x: vec![0.0, 0.1, 0.2, 0.3],
        y: vec![0.0, 1.0, 1.0, 3.0],
    };
    let strips = Strips {
        inside: vec![
            (0.05, 0.29),
            (0.03, 0.27),
            (0.07, 0.23),
            (0.11, 0.19),
            (0.01, 0.17),
            (0.2, 0.2),
            (0.2, 0.1),
            (9.0, 0.1),
            (0.2, -9.0),
            (9.0, f64::NAN),
        ],
        anywhere: vec![(-1.0, 1.0)],
        between: vec![(1, 2), (1, 3), (1, 4), (1, 1), (2, 1)],
    };
    let queries = Queries {
        strips,
        ..Queries::default()
    };
    Case::Build(table, Room::default(), queries)
}

fn part(rule: Rule, case: &Case) -> Option<&'static str> {
    let judged = Judge::strips_by(rule).case(case);
    judged.err().map(|mismatch| mismatch.part)
}

#[test]
fn each_wrong_strip_is_seen() {
    if !at_hand() {
        return;
    }
    let case = made();
    assert_eq!(part(RULE, &case), None);
    for (name, rule) in OF_STRIPS {
        let told = part(rule, &case);
        let due = ["a strip", "a strip's refusal"];
        assert!(
            told.is_some_and(|part| due.contains(&part)),
            "{name}: {told:?}"
        );
    }
    for (name, rule) in OF_PLACES {
        let told = part(rule, &case);
        let due = ["a strip between places", "a refusal between places"];
        assert!(
            told.is_some_and(|part| due.contains(&part)),
            "{name}: {told:?}"
        );
    }
    let (name, rule) = OF_COLUMNS[0];
    assert_eq!(part(rule, &case), Some("an entry of a column"), "{name}");
}

/// The program draws what each wrong rule differs in: each is seen within so many cases.
#[test]
fn drawn_cases_see_each_wrong_strip() {
    if !at_hand() {
        return;
    }
    let wrong = OF_STRIPS.iter().chain(&OF_COLUMNS).chain(&OF_PLACES);
    let judge = |&(name, rule): &Wrong| (name, Judge::strips_by(rule));
    drawn::each_is_seen(2000, wrong.map(judge).collect(), |_| true);
}

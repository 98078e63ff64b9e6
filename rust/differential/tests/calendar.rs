//! That the judge would see a library with another calendar: what the library tells is found right by the calendar that is due, and wrong by
//! each other one, on months made for it and among the cases that the program draws.

mod drawn;

use differential::calendar::{Asked, Fault, MONTHS, MONTHS_NOT_PERIODS, RULE, Rule, fault, start};
use differential::case::{Case, Months, Queries, Room, Table};
use differential::judge::Judge;
use havgrunel::Split;
use oracle::Settings;

fn at_hand() -> bool {
    if !oracle::AT_HAND {
        eprintln!("{}", oracle::NOT_AT_HAND);
    }
    oracle::AT_HAND
}

/// These months with an average for each knot, or where they are refused with four.
fn months(first: i64, last: i64, months: u8) -> Case {
    let asked = Asked {
        first,
        last,
        months,
    };
    let points = RULE.knots(&asked).map_or(4, |knots| knots.len());
    let table = Table {
        settings: Settings {
            quadraticity: 0.3,
            monotonicity: 0.7,
            positivity: true,
        },
        split: Split::Original,
        hold: false,
        seam: None,
        x: Vec::new(),
        y: (0..points).map(|k| 20.0 + (k * 7 % 11) as f64).collect(),
    };
    Case::Months(Months {
        asked,
        table,
        room: Room::default(),
        queries: Queries::default(),
    })
}

/// The fault, unless it is this one.
fn except(asked: &Asked, let_by: Fault) -> Option<Fault> {
    fault(asked).filter(|&fault| fault != let_by)
}

/// The start of a month by a calendar with so many leap days fewer before it.
fn without(month: i64, leap_days: fn(i64) -> i64) -> i64 {
    // How many Februaries are over.
    let over = (month + 10) / 12;
    start(month) - leap_days(over)
}

/// A name, a calendar that is wrong in one part, and months that show it.
fn wrong() -> Vec<(&'static str, Rule, Case)> {
    let starting = |start: fn(i64) -> i64| Rule { start, ..RULE };
    let faulty = |fault: fn(&Asked) -> Option<Fault>| Rule { fault, ..RULE };
    vec![
        (
            "every 29 February is lost",
            starting(|month| without(month, |over| (over + 3) / 4)),
            months(336, 338, 1),
        ),
        (
            "2000 is no leap year",
            starting(|month| without(month, |over| over.min(1))),
            months(1, 2, 1),
        ),
        (
            "every fourth year from 2001 on is a leap year",
            starting(|month| without(month, |over| (over + 3) / 4 - (over + 2) / 4)),
            months(0, 3, 1),
        ),
        (
            "2096 is no leap year",
            starting(|month| without(month, |over| i64::from(over > 96))),
            months(1152, 1155, 1),
        ),
        (
            "February has 30 days",
            starting(|month| start(month) + i64::from(month % 12 == 2)),
            months(12, 14, 1),
        ),
        (
            "all months have 30 days",
            starting(|month| 30 * month),
            months(0, 2, 1),
        ),
        (
            "1 January 2000 is day 1",
            starting(|month| start(month) + 1),
            months(0, 2, 1),
        ),
        (
            "a knot is the last day of the month before",
            starting(|month| start(month) - 1),
            months(0, 2, 1),
        ),
        (
            "the last period is not delivered",
            Rule {
                knots: |periods| periods.max(2),
                ..RULE
            },
            months(0, 5, 1),
        ),
        (
            "a quarter or a year starts anywhere",
            faulty(|asked| {
                let moved = Asked {
                    first: 0,
                    last: asked.last.saturating_sub(asked.first),
                    ..*asked
                };
                fault(asked)
                    .filter(|_| except(asked, Fault::Start).is_some() || fault(&moved).is_some())
            }),
            months(1, 6, 3),
        ),
        (
            "a year starts with any quarter",
            faulty(|asked| {
                let by_quarters = Asked {
                    months: 3,
                    ..*asked
                };
                let years = asked.last.saturating_sub(asked.first).saturating_add(1) % 12 == 0;
                let let_by = asked.months == 12 && years && fault(&by_quarters).is_none();
                fault(asked).filter(|_| !let_by)
            }),
            months(9, 20, 12),
        ),
        (
            "the last period may be cut",
            faulty(|asked| except(asked, Fault::End)),
            months(0, 7, 3),
        ),
        (
            "a half year is a period",
            faulty(|asked| {
                let quarters = Asked {
                    months: 3,
                    ..*asked
                };
                let asked = if asked.months == 6 { &quarters } else { asked };
                fault(asked)
            }),
            months(0, 11, 6),
        ),
        (
            "the last may be the month before the first",
            faulty(|asked| {
                let none = asked.last.checked_add(1) == Some(asked.first);
                fault(asked).filter(|&fault| !(none && fault == Fault::Falling))
            }),
            months(5, 4, 1),
        ),
        (
            "December 2099 is past the end",
            faulty(|asked| fault(asked).or((asked.last == MONTHS - 1).then_some(Fault::Outside))),
            months(MONTHS - 2, MONTHS - 1, 1),
        ),
        (
            "January 2100 is not past the end",
            faulty(|asked| {
                let before = Asked {
                    last: asked.last.min(MONTHS - 1),
                    ..*asked
                };
                let one_more = asked.months == 1 && asked.last == MONTHS;
                if one_more {
                    fault(&before)
                } else {
                    fault(asked)
                }
            }),
            months(MONTHS - 2, MONTHS, 1),
        ),
        (
            "December 1999 is not before the start",
            faulty(|asked| {
                let after = Asked {
                    first: asked.first.max(0),
                    ..*asked
                };
                let one_more = asked.months == 1 && asked.first == -1;
                if one_more {
                    fault(&after)
                } else {
                    fault(asked)
                }
            }),
            months(-1, 3, 1),
        ),
        (
            "January 2000 is before the start",
            faulty(|asked| fault(asked).or((asked.first == 0).then_some(Fault::Outside))),
            months(0, 3, 1),
        ),
        (
            "nothing is refused but the number of months",
            faulty(|asked| {
                let apart = asked.last.checked_sub(asked.first);
                let is_far = apart.is_none_or(|apart| !(0..MONTHS).contains(&apart));
                let far = is_far || !(-24..2 * MONTHS).contains(&asked.first);
                fault(asked).filter(|&fault| far || fault == Fault::Size)
            }),
            months(1, 3, 3),
        ),
    ]
}

#[test]
fn the_days_of_each_month() {
    let lengths: Vec<i64> = (0..MONTHS)
        .map(|month| start(month + 1) - start(month))
        .collect();
    assert_eq!((start(0), start(MONTHS)), (0, 36525));
    for (year, lengths) in lengths.chunks(12).enumerate() {
        let february = if year % 4 == 0 { 29 } else { 28 };
        let due = [31, february, 31, 30, 31, 30, 31, 31, 30, 31, 30, 31];
        assert_eq!(lengths, due, "{}", 2000 + year);
    }
    for (first, last, months) in [
        (0, 5, 4),
        (1, 3, 3),
        (0, 3, 3),
        (5, 4, 1),
        (-1, 3, 1),
        (3, 1200, 1),
    ] {
        let asked = Asked {
            first,
            last,
            months,
        };
        assert_eq!(RULE.knots(&asked), Err(MONTHS_NOT_PERIODS));
    }
}

#[test]
fn each_wrong_calendar_is_seen() {
    if !at_hand() {
        return;
    }
    for (name, rule, case) in wrong() {
        let told = Judge::default().case(&case).err().map(|found| found.told);
        assert_eq!(told, None, "{case}");
        let found = Judge::by_calendar(rule).case(&case).err();
        println!("{name}: {:?}", found.as_ref().map(|found| found.part));
        assert!(found.is_some(), "{name}");
    }
}

/// The program draws what each wrong calendar differs in: each is seen within so many cases.
#[test]
fn drawn_cases_see_each_wrong_calendar() {
    if at_hand() {
        let wrong = wrong();
        let judges = wrong
            .iter()
            .map(|&(name, rule, _)| (name, Judge::by_calendar(rule)));
        drawn::each_is_seen(40_000, judges.collect(), |case| {
            matches!(case, Case::Months(_))
        });
    }
}

//! Delivery months: their knots against a calendar that is walked through day by day, and what is refused.

mod calendar;

use std::collections::HashSet;

use calendar::{MONTHS, first_days, knots};
use havgrunel::{MOST_MONTH_KNOTS, Period, Refusal, ffi, lent, month, month_knots};
use oracle::answers::rng::Rng;

const PERIODS: [Period; 3] = [Period::Month, Period::Quarter, Period::Year];

const OLD: f64 = -123.25;
const OLD_COUNT: usize = 77;

/// What a call tells and leaves, where it is lent so many entries and one count.
fn lent_knots(first: i64, last: i64, months: u8, room: usize) -> (u8, Vec<f64>, usize) {
    let (mut knots, mut count) = (vec![OLD; room], [OLD_COUNT]);
    let told = ffi::month_knots(first, last, months, &mut knots, &mut count);
    (told, knots, count[0])
}

#[test]
fn every_month_of_the_calendar() {
    let days = first_days();
    assert_eq!(days.len(), MOST_MONTH_KNOTS);
    assert_eq!(
        days[..4],
        [0.0, 31.0, 60.0, 91.0],
        "2000 is a leap year, as 2100 is not"
    );
    assert_eq!(days[1200], 36525.0);
    let all = month_knots(0, MONTHS - 1, Period::Month).expect("whole");
    assert_eq!(all, days);
    assert!(all.iter().all(|day| day.is_sign_positive()));
    for period in PERIODS {
        let months = usize::from(period.months());
        let due: Vec<f64> = days.iter().step_by(months).copied().collect();
        assert_eq!(month_knots(0, MONTHS - 1, period), Ok(due));
    }
}

#[test]
fn months_by_their_names() {
    assert_eq!(month(2000, 1), 0);
    assert_eq!(month(2026, 10), 321);
    assert_eq!(month(2099, 12), MONTHS - 1);
    assert_eq!(month(1999, 12), -1);
    // Any numbers are taken.
    assert_eq!(month(2026, 13), month(2027, 1));
    assert_eq!(month(2026, 0), month(2025, 12));
    assert_eq!(month(i32::MIN, 0), 12 * (i64::from(i32::MIN) - 2000) - 1);
    assert_eq!(
        month(i32::MAX, 255),
        12 * (i64::from(i32::MAX) - 2000) + 254
    );
    assert_eq!(
        PERIODS.map(Period::months),
        [1, 3, 12],
        "the numbers by which the library knows them"
    );
}

/// From every month, over few periods and over all that are left; and between drawn months.
#[test]
fn whole_periods_from_and_to_anywhere() {
    let days = first_days();
    let rng = &mut Rng::new(19);
    let mut tried = 0;
    for period in PERIODS {
        let months = period.months();
        let size = i64::from(months);
        let all = MONTHS / size;
        let mut check = |from: i64, periods: i64| {
            let (first, last) = (size * from, size * (from + periods) - 1);
            let due = knots(&days, first, last, months);
            assert_eq!(due.len() as i64, periods + 1);
            // With room to spare, with none to spare, and one entry short.
            let (told, left, count) = lent_knots(first, last, months, due.len() + 2);
            assert_eq!((told, count), (0, due.len()), "{first} to {last}");
            assert_eq!(left[..count], due, "{first} to {last}");
            assert_eq!(left[count..], [OLD; 2], "{first} to {last}");
            assert_eq!(lent_knots(first, last, months, count), (0, due, count));
            let short = lent_knots(first, last, months, count - 1);
            assert_eq!(short, (11, vec![OLD; count - 1], OLD_COUNT));
            let owned = month_knots(first, last, period).expect("whole");
            assert_eq!(owned, left[..count]);
            tried += 1;
        };
        for from in 0..all {
            for periods in [1, 2, 3, 12, all - from] {
                if from + periods <= all {
                    check(from, periods);
                }
            }
        }
        for _ in 0..1000 {
            let from = rng.below(all as u64) as i64;
            check(from, 1 + rng.below((all - from) as u64) as i64);
        }
    }
    assert!(tried > 10_000, "{tried}");
}

/// Every pair of months in the calendar and a year around it, by a list of all whole periods. Without room these are refused by 11, and all
/// else by 19 before it.
#[test]
fn all_that_is_not_whole_is_refused() {
    let around = -13..MONTHS + 13;
    for months in [0, 1, 2, 3, 4, 6, 9, 11, 12, 13, 15, 24, 36, 128, 255] {
        let mut whole = HashSet::new();
        if PERIODS.iter().any(|period| period.months() == months) {
            let size = i64::from(months);
            for from in 0..MONTHS / size {
                whole.extend((from + 1..=MONTHS / size).map(|to| (size * from, size * to - 1)));
            }
        }
        for first in around.clone() {
            for last in around.clone() {
                let told = ffi::month_knots(first, last, months, &mut [], &mut []);
                let due = if !whole.is_empty() && whole.contains(&(first, last)) {
                    11
                } else {
                    19
                };
                assert_eq!(told, due, "{first} to {last} by {months}");
            }
        }
    }
}

#[test]
fn the_largest_numbers_are_refused() {
    let far = [
        i64::MIN,
        i64::MIN + 1,
        i64::MIN + 1200,
        -(1 << 32),
        -1,
        MONTHS,
        1 << 16,
        (1 << 32) + 11,
        1 << 32,
        i64::MAX - 1200,
        i64::MAX - 1,
        i64::MAX,
    ];
    for period in PERIODS {
        let months = period.months();
        for one in far {
            let pairs = [
                (one, 11),
                (0, one),
                (one, one),
                (one, i64::from(months) - 1),
            ];
            let with_far = far.map(|other| (one, other));
            for (first, last) in pairs.into_iter().chain(with_far) {
                let refused = lent_knots(first, last, months, MOST_MONTH_KNOTS);
                let left = vec![OLD; MOST_MONTH_KNOTS];
                assert_eq!(refused, (19, left, OLD_COUNT), "{first} to {last}");
                let refused = month_knots(first, last, period);
                assert_eq!(refused, Err(Refusal::MonthsNotPeriods));
            }
        }
    }
}

#[test]
fn lent_entries_are_told() {
    let mut knots = [OLD; 4];
    let told = lent::month_knots(2, 3, Period::Month, &mut knots);
    assert_eq!(told, Ok(3));
    assert_eq!(knots, [60.0, 91.0, 121.0, OLD]);
    let mut knots = [OLD; 2];
    let told = lent::month_knots(2, 3, Period::Month, &mut knots);
    assert_eq!(told, Err(Refusal::BufferTooShort));
    let told = lent::month_knots(2, 3, Period::Quarter, &mut knots);
    assert_eq!(told, Err(Refusal::MonthsNotPeriods));
    assert_eq!(knots, [OLD; 2]);
    // No entry for the count.
    let mut three = [OLD; 3];
    assert_eq!(ffi::month_knots(2, 3, 1, &mut three, &mut []), 11);
    assert_eq!(three, [OLD; 3]);
}

#[test]
fn its_number_and_words() {
    let refused = month_knots(0, 1, Period::Quarter).unwrap_err();
    assert_eq!(refused, Refusal::MonthsNotPeriods);
    assert_eq!(refused.number(), 19);
    let words = "the months are not whole periods of 1, 3 or 12 months between January 2000 and December 2099";
    assert_eq!(refused.text(), words);
}

//! Delivery months: periods of the calendar, and their knots in days.

use crate::{Refusal, lent};

/// The most knots that delivery periods can have: those of the 1200 months from January 2000 to December 2099.
pub const MOST_MONTH_KNOTS: usize = 1201;

/// How long a delivery period is.
#[derive(Clone, Copy, Debug, PartialEq, Eq, Hash)]
pub enum Period {
    /// A month.
    Month = 1,
    /// A quarter, which starts in January, April, July or October.
    Quarter = 3,
    /// A year, which starts in January.
    Year = 12,
}

impl Period {
    /// How many months it has.
    pub const fn months(self) -> u8 {
        self as u8
    }

    /// Room for the knots of these periods. What it says of months that are refused makes no difference, as long as that is not much.
    pub(crate) fn room(self, first: i64, last: i64) -> usize {
        let months = last.saturating_sub(first).saturating_add(1);
        let periods = months / i64::from(self.months());
        usize::try_from(periods)
            .map_or(0, |periods| periods.saturating_add(1).min(MOST_MONTH_KNOTS))
    }
}

/// The number of a month, January being 1: months count from January 2000, which is 0. Any numbers are taken, and a month past December
/// belongs to a later year; what is not in the calendar of the library, from January 2000 to December 2099, is refused where it is used.
///
/// ```
/// use havgrunel::month;
///
/// assert_eq!(month(2000, 1), 0);
/// assert_eq!(month(2026, 10), 12 * (2026 - 2000) + 9);
/// assert_eq!(month(2099, 12), 1199);
/// ```
pub const fn month(year: i32, month: u8) -> i64 {
    12 * (year as i64 - 2000) + month as i64 - 1
}

/// The knots of the delivery periods from one month to another, both of them delivered: the first day of each period, and of the month after
/// the last, as numbers of days from 1 January 2000, which is 0. Months are numbers that [`month`] tells.
///
/// ```
/// use havgrunel::{Period, Refusal, month, month_knots};
///
/// // February 2028 has 29 days.
/// let knots = month_knots(month(2028, 1), month(2028, 3), Period::Month)?;
/// assert_eq!(knots, [10227.0, 10258.0, 10287.0, 10318.0]);
/// assert_eq!(month_knots(month(2028, 1), month(2028, 3), Period::Quarter)?, [10227.0, 10318.0]);
///
/// // No quarter starts in February.
/// let refused = month_knots(month(2028, 2), month(2028, 4), Period::Quarter);
/// assert_eq!(refused, Err(Refusal::MonthsNotPeriods));
/// # Ok::<(), Refusal>(())
/// ```
///
/// Refused by 19 where a month is not in the calendar from January 2000 to December 2099, the last one is before the first, no period of that
/// length starts with the first, or none ends with the last.
pub fn month_knots(first: i64, last: i64, period: Period) -> Result<Vec<f64>, Refusal> {
    let mut knots = vec![0.0; period.room(first, last)];
    let count = lent::month_knots(first, last, period, &mut knots)?;
    knots.truncate(count);
    Ok(knots)
}

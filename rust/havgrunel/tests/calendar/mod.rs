//! The calendar by a rule of its own: a walk from day to day.

/// How many months there are, from January 2000 to December 2099.
pub const MONTHS: i64 = 1200;

fn days_of(year: u32, month: u32) -> u32 {
    let is_leap = year.is_multiple_of(4) && !year.is_multiple_of(100) || year.is_multiple_of(400);
    match month {
        2 if is_leap => 29,
        2 => 28,
        4 | 6 | 9 | 11 => 30,
        _ => 31,
    }
}

/// The days on which a month starts, counted from 1 January 2000 up to 1 January 2100.
pub fn first_days() -> Vec<f64> {
    let (mut year, mut month, mut date) = (2000, 1, 1);
    let mut first_days = Vec::new();
    let mut day = 0.0;
    loop {
        if date == 1 {
            first_days.push(day);
        }
        if year == 2100 {
            return first_days;
        }
        day += 1.0;
        date += 1;
        if date > days_of(year, month) {
            (month, date) = (month + 1, 1);
        }
        if month > 12 {
            (year, month) = (year + 1, 1);
        }
    }
}

/// The knots from one month to another, of periods that are whole, by the days on which all months start.
pub fn knots(first_days: &[f64], first: i64, last: i64, months: u8) -> Vec<f64> {
    let (from, to) = (first as usize, last as usize + 1);
    let days = first_days[from..=to].iter();
    days.step_by(usize::from(months)).copied().collect()
}

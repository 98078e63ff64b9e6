//! Delivery months by a calendar of this program's own: which are whole periods, and on which days these start. Nothing here asks the library.

/// The refusal that delivery months add.
pub const MONTHS_NOT_PERIODS: u8 = 19;

/// How many months there are, from January 2000 to December 2099.
pub const MONTHS: i64 = 1200;

/// Delivery months from the first to the last, by periods of so many; any numbers.
#[derive(Clone, Copy)]
pub struct Asked {
    pub first: i64,
    pub last: i64,
    pub months: u8,
}

/// What keeps months from being whole periods.
#[derive(Clone, Copy, PartialEq)]
pub enum Fault {
    /// No period has so many months.
    Size,
    /// A month is not in the calendar.
    Outside,
    /// The last is before the first.
    Falling,
    /// No period starts with the first month.
    Start,
    /// No period ends with the last month.
    End,
}

/// What is due of delivery months.
#[derive(Clone, Copy)]
pub struct Rule {
    pub fault: fn(&Asked) -> Option<Fault>,
    /// The day on which a month of the calendar starts.
    pub start: fn(i64) -> i64,
    /// How many knots so many periods have.
    pub knots: fn(i64) -> i64,
}

/// The rule of document 02.
pub const RULE: Rule = Rule {
    fault,
    start,
    knots: |periods| periods + 1,
};

impl Rule {
    /// The knots of these months, or the refusal.
    pub fn knots(&self, asked: &Asked) -> Result<Vec<f64>, u8> {
        if (self.fault)(asked).is_some() {
            return Err(MONTHS_NOT_PERIODS);
        }
        let size = i64::from(asked.months);
        let periods = (asked.last + 1 - asked.first) / size;
        let knot = |place: i64| (self.start)(asked.first + place * size) as f64;
        Ok((0..(self.knots)(periods)).map(knot).collect())
    }
}

/// The first fault, if there is one.
pub fn fault(asked: &Asked) -> Option<Fault> {
    let &Asked {
        first,
        last,
        months,
    } = asked;
    let size = i64::from(months);
    match months {
        1 | 3 | 12 => {}
        _ => return Some(Fault::Size),
    }
    if !(0..MONTHS).contains(&first) || !(0..MONTHS).contains(&last) {
        Some(Fault::Outside)
    } else if last < first {
        Some(Fault::Falling)
    } else if first % size != 0 {
        Some(Fault::Start)
    } else if (last + 1) % size != 0 {
        Some(Fault::End)
    } else {
        None
    }
}

/// The day on which a month starts, 1 January 2000 being 0. Years are counted from March on, so that a leap day is the last of its year and
/// the months before it have the same days in all.
pub fn start(month: i64) -> i64 {
    since_march(month) - since_march(0)
}

fn since_march(month: i64) -> i64 {
    let from_march = 12 * 2000 + month - 2;
    let (year, month) = (from_march / 12, from_march % 12);
    365 * year + year / 4 - year / 100 + year / 400 + (153 * month + 2) / 5
}

//! Delivery months: whole periods anywhere in the calendar, and months that are none.

use oracle::answers::rng::Rng;

use super::tables::{spoil, table};
use super::{index, queries, room};
use crate::calendar::{Asked, MONTHS, RULE};
use crate::case::{Case, Months};

/// Whole periods: few mostly, at the ends of the calendar often, and sometimes all of it.
fn whole(rng: &mut Rng) -> Asked {
    let months = rng.pick(&[1, 1, 1, 3, 12]);
    let size = i64::from(months);
    let all = (MONTHS / size) as usize;
    let most = match rng.below(64) {
        0 => all,
        1..=4 => 120,
        _ => 24,
    };
    let periods = 1 + index(rng, most.min(all));
    let from = match rng.below(8) {
        0 => 0,
        1 => all - periods,
        _ => index(rng, all - periods + 1),
    };
    Asked {
        first: size * from as i64,
        last: size * (from + periods) as i64 - 1,
        months,
    }
}

/// Spoils one thing about the months, or nothing.
fn misplace(rng: &mut Rng, asked: &mut Asked) {
    let far = rng.pick(&[
        -1,
        -12,
        MONTHS,
        MONTHS + 11,
        1 << 32,
        (1 << 32) + 11,
        i64::MIN,
        i64::MIN + 11,
        i64::MAX - 12,
        i64::MAX,
    ]);
    let step = 1 + rng.below(11) as i64;
    let longer = rng.pick(&[3, 12]);
    match rng.below(8) {
        0 => asked.months = rng.pick(&[0, 2, 4, 6, 11, 13, 24, 255]),
        1 => asked.first = far,
        2 => asked.last = far,
        3 => (asked.first, asked.last) = (far, far.saturating_add(step)),
        4 => (asked.first, asked.last) = (asked.last.max(asked.first + 1), asked.first),
        // Where periods can be cut at all.
        5 => {
            asked.months = asked.months.max(longer);
            asked.first += step;
            asked.last += 12;
        }
        6 => {
            asked.months = asked.months.max(longer);
            asked.first -= asked.first % i64::from(asked.months);
            asked.last += step;
        }
        _ => asked.months = longer,
    }
}

pub fn months(rng: &mut Rng) -> Case {
    let mut asked = whole(rng);
    let knots = RULE.knots(&asked).expect("whole periods");
    let mut table = table(rng, knots.len());
    let mut room = room(rng);
    match rng.below(8) {
        0 | 1 => misplace(rng, &mut asked),
        // What is wrong with the months is told first.
        2 => {
            misplace(rng, &mut asked);
            spoil(rng, &mut table, &mut room);
        }
        3 => spoil(rng, &mut table, &mut room),
        4 => room.knots = rng.pick(&[-1, -1, -2, -100_000]),
        _ => {}
    }
    table.x.clear();
    let queries = queries(rng, &knots);
    Case::Months(Months {
        asked,
        table,
        room,
        queries,
    })
}

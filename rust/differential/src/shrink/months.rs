//! Simpler delivery months.

use super::curves::{simpler_queries, simpler_tables};
use crate::case::{Months, Room};
use crate::judge::Mismatch;

pub fn simpler_months(case: &Months, found: &Mismatch) -> Vec<Months> {
    let mut all = Vec::new();
    let mut with = |change: &dyn Fn(&mut Months)| {
        let mut less = case.clone();
        change(&mut less);
        all.push(less);
    };
    if case.room != Room::default() {
        with(&|less| less.room = Room::default());
    }
    for queries in simpler_queries(&case.queries, found) {
        with(&|less| less.queries = queries.clone());
    }
    // Fewer periods, from either end, with as many averages fewer.
    let size = i64::from(case.asked.months);
    let mut fewer = case.table.y.len() / 2;
    while fewer > 0 {
        let months = size.saturating_mul(fewer as i64);
        with(&|less| {
            less.asked.last = less.asked.last.saturating_sub(months);
            less.table.y.truncate(case.table.y.len() - fewer);
        });
        with(&|less| {
            less.asked.first = less.asked.first.saturating_add(months);
            less.table.y.drain(..fewer);
        });
        fewer /= 2;
    }
    // The same months of an earlier year.
    let mut years = case.asked.first / 12;
    while years > 0 {
        let earlier = 12 * years;
        with(&|less| {
            less.asked.first -= earlier;
            less.asked.last = less.asked.last.saturating_sub(earlier);
        });
        years /= 2;
    }
    for table in simpler_tables(&case.table) {
        with(&|less| less.table = table.clone());
    }
    all
}

//! Simpler tables in sheets.

use super::curves::simpler_tables;
use super::numbers::{rounder_lists, stretches, without};
use crate::case::{Room, Sheets};

/// The same with only the cuts that are inner knots, and the order of the sheets that there then are.
fn tidy(mut sheets: Sheets) -> Sheets {
    let last = sheets.table.x.len().saturating_sub(1);
    sheets.cuts.dedup();
    sheets.cuts.retain(|&cut| 0 < cut && cut < last);
    let count = sheets.cuts.len() + 1;
    sheets.order.retain(|&number| number < count);
    sheets
}

pub fn simpler_sheets(sheets: &Sheets) -> Vec<Sheets> {
    let mut all = Vec::new();
    let mut with = |change: &dyn Fn(&mut Sheets)| {
        let mut less = sheets.clone();
        change(&mut less);
        all.push(tidy(less));
    };
    if sheets.room != Room::default() {
        with(&|less| less.room = Room::default());
    }
    if !sheets.others.is_empty() {
        with(&|less| less.others.clear());
        for stretch in stretches(sheets.others.len()) {
            with(&|less| less.others = without(&sheets.others, stretch));
        }
    }
    let rising: Vec<usize> = (0..=sheets.cuts.len()).collect();
    if sheets.order != rising {
        with(&|less| less.order.clone_from(&rising));
        let mut once = sheets.order.clone();
        once.sort_unstable();
        if once != rising {
            with(&|less| less.order = rising.iter().rev().copied().collect());
        }
    }
    // A point less, and the cuts beyond it with it.
    let points = sheets.table.x.len().max(sheets.table.y.len());
    for stretch in stretches(points) {
        let fewer = |cut: &mut usize| *cut -= (*cut).min(stretch.1) - (*cut).min(stretch.0);
        with(&|less| {
            less.table.x = without(&sheets.table.x, stretch);
            less.table.y = without(&sheets.table.y, stretch);
            less.cuts.iter_mut().for_each(fewer);
            less.others.iter_mut().for_each(fewer);
        });
    }
    for stretch in stretches(sheets.cuts.len()) {
        with(&|less| less.cuts = without(&sheets.cuts, stretch));
    }
    for table in simpler_tables(&sheets.table) {
        with(&|less| less.table = table.clone());
    }
    for given in rounder_lists(&sheets.given) {
        with(&|less| less.given.copy_from_slice(&given));
    }
    all
}

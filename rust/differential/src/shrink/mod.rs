//! The smallest case near one that differs: fewer points, simpler settings, rounder numbers, as long as the same sort of number
//! still differs.

mod curves;
mod months;
mod numbers;
mod sheets;

use std::panic::{self, AssertUnwindSafe};

use havgrunel::Split;

use crate::case::{Case, Room, Single};
use crate::judge::{Judge, Mismatch};
use curves::{simpler_growths, simpler_queries, simpler_readings, simpler_tables};
use months::simpler_months;
use numbers::{rounder, rounder_lists, rounder_places};
use sheets::simpler_sheets;

/// How many cases are tried at most.
const TRIES: usize = 20_000;

/// What differs in this case. A side that stops differs too.
pub fn judged(judge: &mut Judge, case: &Case) -> Result<(), Mismatch> {
    let run = AssertUnwindSafe(|| judge.case(case));
    panic::catch_unwind(run).unwrap_or_else(|stopped| {
        let words = stopped.downcast_ref::<String>().cloned();
        let words = words.or_else(|| stopped.downcast_ref::<&str>().map(|&s| s.into()));
        let told = words.unwrap_or_default();
        Err(Mismatch::new("a call that stopped", told))
    })
}

/// The smallest case that can be found, and what differs in it.
pub fn smallest(mut case: Case, mut found: Mismatch) -> (Case, Mismatch) {
    let mut judge = Judge::default();
    let mut tries = 0;
    let mut holds = |case: &Case, part: &str| {
        tries += 1;
        let still = (tries < TRIES).then(|| judged(&mut judge, case).err())?;
        still.filter(|mismatch| mismatch.part == part)
    };
    'again: loop {
        for simpler in simpler(&case, &found) {
            if let Some(still) = holds(&simpler, found.part) {
                (case, found) = (simpler, still);
                continue 'again;
            }
        }
        return (case, found);
    }
}

/// Cases that are simpler than this one, the simplest first.
fn simpler(case: &Case, found: &Mismatch) -> Vec<Case> {
    let mut all = Vec::new();
    match case {
        Case::Build(table, room, queries) => {
            if *room != Room::default() {
                all.push(Case::Build(table.clone(), Room::default(), queries.clone()));
            }
            for queries in simpler_queries(queries, found) {
                all.push(Case::Build(table.clone(), *room, queries));
            }
            for table in simpler_tables(table) {
                all.push(Case::Build(table, *room, queries.clone()));
            }
        }
        Case::Growth { x, y, steps } => all = simpler_growths(x, y, steps, found),
        Case::Reading(reading) => {
            let readings = simpler_readings(reading, found);
            all.extend(readings.into_iter().map(Case::Reading));
        }
        Case::Sheets(sheets) => {
            let simpler = simpler_sheets(sheets);
            all.extend(simpler.into_iter().map(Case::Sheets));
        }
        Case::Months(months) => {
            let simpler = simpler_months(months, found);
            all.extend(simpler.into_iter().map(Case::Months));
        }
        Case::Section(single) => {
            let singles = simpler_singles(single, found);
            all.extend(singles.into_iter().map(Case::Section));
        }
        Case::Record(record, lent, answer, asked) => {
            for asked in simpler_asked(asked, found) {
                all.push(Case::Record(*record, *lent, *answer, asked));
            }
            for slots in rounder_lists(&record.slots) {
                let mut less = *record;
                less.slots.copy_from_slice(&slots);
                all.push(Case::Record(less, *lent, *answer, asked.clone()));
            }
        }
    }
    all.extend(rounder_places(case));
    all
}

fn simpler_singles(single: &Single, found: &Mismatch) -> Vec<Single> {
    let mut all = Vec::new();
    let mut with = |change: &dyn Fn(&mut Single)| {
        let mut less = single.clone();
        change(&mut less);
        all.push(less);
    };
    for asked in simpler_asked(&single.asked, found) {
        with(&|less| less.asked.clone_from(&asked));
    }
    if single.split != Split::Original {
        with(&|less| less.split = Split::Original);
    }
    let words = recipe_words(&single.recipe);
    for (place, &word) in words.iter().enumerate() {
        for other in rounder(f64::from_bits(word)) {
            let mut words = words.clone();
            words[place] = other.to_bits();
            // A word that is a kind and no float does not read as another recipe of the same shape.
            let read = oracle::Recipe::read(&words);
            if let Some(recipe) = read.filter(|recipe| same_shape(recipe, &single.recipe)) {
                with(&|less| less.recipe = recipe);
            }
        }
    }
    all
}

fn simpler_asked(asked: &[f64], found: &Mismatch) -> Vec<Vec<f64>> {
    if asked.len() > 1 {
        return vec![found.query.map(|(_, x)| x).into_iter().collect()];
    }
    rounder_lists(asked)
}

fn recipe_words(recipe: &oracle::Recipe) -> Vec<u64> {
    let mut line = String::new();
    recipe.push(&mut line);
    let words = line.split_whitespace();
    words
        .map(|word| oracle::words::read(word).expect("a word"))
        .collect()
}

fn same_shape(one: &oracle::Recipe, other: &oracle::Recipe) -> bool {
    use oracle::Recipe::Combination;
    one.kind() == other.kind()
        && match (one, other) {
            (Combination(_, a, b), Combination(_, c, d)) => {
                (a.kind(), b.kind()) == (c.kind(), d.kind())
            }
            _ => true,
        }
}

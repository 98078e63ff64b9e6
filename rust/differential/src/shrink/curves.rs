//! Simpler tables, steps of growth and readings.

use havgrunel::Split;
use oracle::Settings;

use super::numbers::{rounder, rounder_lists, stretches, without};
use crate::case::{Case, Damage, Previous, Queries, Reading, Room, Step, Strips, Table};
use crate::judge::Mismatch;

fn simpler_settings(settings: &Settings) -> Vec<Settings> {
    let mut all = Vec::new();
    for quadraticity in rounder(settings.quadraticity) {
        all.push(Settings {
            quadraticity,
            ..*settings
        });
    }
    for monotonicity in rounder(settings.monotonicity) {
        all.push(Settings {
            monotonicity,
            ..*settings
        });
    }
    if settings.positivity {
        all.push(Settings {
            positivity: false,
            ..*settings
        });
    }
    all
}

fn only(query: Option<(bool, f64)>) -> Queries {
    let mut queries = Queries::default();
    match query {
        Some((true, x)) => queries.anywhere.push(x),
        Some((false, x)) => queries.inside.push(x),
        None => {}
    }
    queries
}

fn is_only(queries: &Queries) -> bool {
    !queries.breaks && queries.inside.len() + queries.anywhere.len() <= 1
}

/// The one strip that showed it alone, or else fewer strips.
fn simpler_strips(strips: &Strips, found: &Mismatch) -> Vec<Strips> {
    let mut all = Vec::new();
    let count = strips.inside.len() + strips.anywhere.len() + strips.between.len();
    if count > 1 {
        let mut only = Strips::default();
        match found.strip {
            Some((true, ends)) => only.anywhere.push(ends),
            Some((false, ends)) => only.inside.push(ends),
            None => {}
        }
        only.between.extend(found.between);
        all.push(only);
    }
    let mut with = |change: &dyn Fn(&mut Strips)| {
        let mut less = strips.clone();
        change(&mut less);
        all.push(less);
    };
    for stretch in stretches(strips.inside.len()) {
        with(&|less| less.inside = without(&strips.inside, stretch));
    }
    for stretch in stretches(strips.anywhere.len()) {
        with(&|less| less.anywhere = without(&strips.anywhere, stretch));
    }
    for stretch in stretches(strips.between.len()) {
        with(&|less| less.between = without(&strips.between, stretch));
    }
    all
}

/// Fewer queries, where no single one showed it.
fn fewer_queries(queries: &Queries) -> Vec<Queries> {
    let mut all = Vec::new();
    let mut with = |change: &dyn Fn(&mut Queries)| {
        let mut less = queries.clone();
        change(&mut less);
        all.push(less);
    };
    if queries.breaks {
        with(&|less| less.breaks = false);
    }
    for stretch in stretches(queries.inside.len()) {
        with(&|less| less.inside = without(&queries.inside, stretch));
    }
    for stretch in stretches(queries.anywhere.len()) {
        with(&|less| less.anywhere = without(&queries.anywhere, stretch));
    }
    all
}

pub fn simpler_queries(queries: &Queries, found: &Mismatch) -> Vec<Queries> {
    let mut all = Vec::new();
    for strips in simpler_strips(&queries.strips, found) {
        all.push(Queries {
            strips,
            ..queries.clone()
        });
    }
    if !is_only(queries) {
        all.push(Queries {
            strips: queries.strips.clone(),
            ..only(found.query)
        });
        if found.query.is_none() {
            all.extend(fewer_queries(queries));
        }
        return all;
    }
    if found.query.is_none() && queries.inside.len() + queries.anywhere.len() > 0 {
        all.push(Queries {
            strips: queries.strips.clone(),
            ..Queries::default()
        });
    }
    for inside in rounder_lists(&queries.inside) {
        all.push(Queries {
            inside,
            ..queries.clone()
        });
    }
    for anywhere in rounder_lists(&queries.anywhere) {
        all.push(Queries {
            anywhere,
            ..queries.clone()
        });
    }
    // Within the knots a curve answers alike either way.
    if !queries.anywhere.is_empty() {
        all.push(Queries {
            inside: queries.anywhere.clone(),
            strips: queries.strips.clone(),
            ..Queries::default()
        });
    }
    all
}

pub fn simpler_tables(table: &Table) -> Vec<Table> {
    let mut all = Vec::new();
    for stretch in stretches(table.x.len().max(table.y.len())) {
        let mut less = table.clone();
        less.x = without(&table.x, stretch);
        less.y = without(&table.y, stretch);
        all.push(less);
    }
    if table.split != Split::Original {
        all.push(Table {
            split: Split::Original,
            ..table.clone()
        });
    }
    if table.hold {
        all.push(Table {
            hold: false,
            ..table.clone()
        });
    }
    if let Some(seam) = table.seam {
        all.push(Table {
            seam: None,
            ..table.clone()
        });
        for count in [0, 1, seam.count / 2, seam.count.saturating_sub(1)] {
            if count < seam.count {
                let mut less = table.clone();
                less.seam = Some(oracle::Seam { count, ..seam });
                all.push(less);
            }
        }
        for f_next in rounder(seam.f_next) {
            let mut less = table.clone();
            less.seam = Some(oracle::Seam { f_next, ..seam });
            all.push(less);
        }
    }
    for settings in simpler_settings(&table.settings) {
        all.push(Table {
            settings,
            ..table.clone()
        });
    }
    for y in rounder_lists(&table.y) {
        all.push(Table { y, ..table.clone() });
    }
    all
}

fn simpler_steps(step: &Step, found: &Mismatch) -> Vec<Step> {
    let mut all = Vec::new();
    let mut with = |change: &dyn Fn(&mut Step)| {
        let mut less = step.clone();
        change(&mut less);
        all.push(less);
    };
    if step.room != Room::default() {
        with(&|step| step.room = Room::default());
    }
    if step.split != Split::Original {
        with(&|step| step.split = Split::Original);
    }
    for settings in simpler_settings(&step.settings) {
        with(&|step| step.settings = settings);
    }
    if let Previous::Damaged(Damage { tag, slot, .. }) = &step.previous {
        with(&|step| step.previous = Previous::Last);
        if (tag, slot) != (&None, &None) {
            with(&|step| {
                if let Previous::Damaged(damage) = &mut step.previous {
                    (damage.tag, damage.slot) = (None, None);
                }
            });
        }
    }
    for queries in simpler_queries(&step.queries, found) {
        with(&|step| step.queries = queries.clone());
    }
    all
}

pub fn simpler_growths(x: &[f64], y: &[f64], steps: &[Step], found: &Mismatch) -> Vec<Case> {
    let mut all = Vec::new();
    let mut push = |x: Vec<f64>, y: Vec<f64>, steps: Vec<Step>| {
        all.push(Case::Growth { x, y, steps });
    };
    let same = || (x.to_vec(), y.to_vec());
    if found.step + 1 < steps.len() {
        let (x, y) = same();
        push(x, y, steps[..=found.step].to_vec());
    }
    for place in 0..steps.len() {
        let (x, y) = same();
        push(x, y, without(steps, (place, place + 1)));
    }
    // A point less, for the table and for every step that reaches it.
    for stretch in stretches(x.len()) {
        let fewer = |count: usize| count - count.min(stretch.1) + count.min(stretch.0);
        let mut less = steps.to_vec();
        for step in &mut less {
            step.knots = fewer(step.knots);
            step.averages = fewer(step.averages);
            if step.localisation < x.len() {
                step.localisation = fewer(step.localisation + 1).saturating_sub(1);
            }
            if step.final_size <= x.len() {
                step.final_size = fewer(step.final_size);
            }
        }
        push(without(x, stretch), without(y, stretch), less);
    }
    for (place, step) in steps.iter().enumerate() {
        let found = Mismatch {
            query: found.query.filter(|_| place == found.step),
            strip: found.strip.filter(|_| place == found.step),
            between: found.between.filter(|_| place == found.step),
            ..found.clone()
        };
        for step in simpler_steps(step, &found) {
            let (x, y) = same();
            let mut steps = steps.to_vec();
            steps[place] = step;
            push(x, y, steps);
        }
    }
    for rounder in rounder_lists(y) {
        push(x.to_vec(), rounder, steps.to_vec());
    }
    all
}

pub fn simpler_readings(reading: &Reading, found: &Mismatch) -> Vec<Reading> {
    let mut all = Vec::new();
    let mut with = |change: &dyn Fn(&mut Reading)| {
        let mut less = reading.clone();
        change(&mut less);
        all.push(less);
    };
    for queries in simpler_queries(&reading.queries, found) {
        with(&|less| less.queries = queries.clone());
    }
    for place in 0..reading.records.len() {
        with(&|less| {
            less.records.remove(place);
        });
    }
    for place in 0..reading.new_tags.len() {
        with(&|less| {
            less.new_tags.remove(place);
        });
    }
    for place in 0..reading.new_slots.len() {
        with(&|less| {
            less.new_slots.remove(place);
        });
    }
    if reading.tail.is_some() {
        with(&|less| less.tail = None);
    }
    if (reading.tags, reading.slots) != (0, 0) {
        with(&|less| (less.tags, less.slots) = (0, 0));
    }
    if reading.answer != 1 {
        with(&|less| less.answer = 1);
    }
    let own = reading.knots.iter().map(|x| x.to_bits());
    let same = own.eq(reading.table.x.iter().map(|x| x.to_bits()));
    if !same {
        with(&|less| less.knots.clone_from(&less.table.x));
        for stretch in stretches(reading.knots.len()) {
            with(&|less| less.knots = without(&reading.knots, stretch));
        }
        for knots in rounder_lists(&reading.knots) {
            with(&|less| less.knots.clone_from(&knots));
        }
    }
    for table in simpler_tables(&reading.table) {
        with(&|less| {
            if same {
                less.knots.clone_from(&table.x);
            }
            less.table = table.clone();
        });
    }
    all
}

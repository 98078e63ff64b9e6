//! What is compared: a case holds all that both sides are asked, and prints as bits.

use std::fmt::{self, Display, Formatter};

use havgrunel::Split;
use oracle::{Recipe, Record, Seam, Settings};

use crate::calendar::Asked;

/// A table with its settings.
#[derive(Clone)]
pub struct Table {
    pub settings: Settings,
    /// The mode; the original has one of them alone.
    pub split: Split,
    pub hold: bool,
    pub seam: Option<Seam>,
    pub x: Vec<f64>,
    pub y: Vec<f64>,
}

/// How many more entries are lent than are needed, or fewer where it is below zero.
#[derive(Clone, Copy, Default, PartialEq)]
pub struct Room {
    pub nodes: i32,
    pub tags: i32,
    pub slots: i32,
    pub sections: i32,
    pub tail: i32,
    pub column: i32,
    pub knots: i32,
}

/// Where a curve is asked, with places outside its knots refused and with them allowed.
#[derive(Clone, Default)]
pub struct Queries {
    pub inside: Vec<f64>,
    pub anywhere: Vec<f64>,
    /// Whether it is asked as well where its sections' formulas change, which is known once it is built.
    pub breaks: bool,
    pub strips: Strips,
}

/// Strips that a curve is asked for.
#[derive(Clone, Default)]
pub struct Strips {
    /// From one place to another, with places outside the knots refused and with them allowed.
    pub inside: Vec<(f64, f64)>,
    pub anywhere: Vec<(f64, f64)>,
    /// From one knot to another, by their numbers.
    pub between: Vec<(usize, usize)>,
}

/// The curve that a step of growth is handed.
#[derive(Clone)]
pub enum Previous {
    None,
    Last,
    /// The last one with these numbers and lengths instead of its own, and some entries changed.
    Damaged(Damage),
}

#[derive(Clone)]
pub struct Damage {
    pub sections: usize,
    pub held: bool,
    pub tags: usize,
    pub slots: usize,
    pub tag: Option<(usize, u16)>,
    pub slot: Option<(usize, f64)>,
}

/// A step of growth: so many of the table's knots and averages.
#[derive(Clone)]
pub struct Step {
    pub knots: usize,
    pub averages: usize,
    pub settings: Settings,
    pub split: Split,
    pub localisation: usize,
    pub final_size: usize,
    pub previous: Previous,
    pub room: Room,
    pub queries: Queries,
}

/// A curve that is asked through changed copies of what was built.
#[derive(Clone)]
pub struct Reading {
    pub table: Table,
    /// The knots of the queries.
    pub knots: Vec<f64>,
    /// Tags and slots that are there beyond what the table takes, or are missing.
    pub tags: i32,
    pub slots: i32,
    pub new_tags: Vec<(usize, u16)>,
    pub new_slots: Vec<(usize, f64)>,
    pub tail: Option<[f64; 3]>,
    pub queries: Queries,
    /// Entries for the answer.
    pub answer: usize,
    /// Records asked for: points, the section's number and the entries for it.
    pub records: Vec<(usize, usize, usize)>,
}

/// A table that is cut into sheets, with no seam and no held period.
#[derive(Clone)]
pub struct Sheets {
    pub table: Table,
    pub room: Room,
    /// The inner knots at which sheets end.
    pub cuts: Vec<usize>,
    /// Cuts that the table is built with at once besides, good or bad.
    pub others: Vec<usize>,
    /// The sheets as they are built a second time, each at least once.
    pub order: Vec<usize>,
    /// What a sheet is handed where the whole is refused: the nodes at its ends and the total before it.
    pub given: [f64; 3],
}

/// A curve that is built by delivery months.
#[derive(Clone)]
pub struct Months {
    pub asked: Asked,
    /// What it is built with. Its knots are the calendar's, so there are none here.
    pub table: Table,
    pub room: Room,
    pub queries: Queries,
}

/// A section from its arguments.
#[derive(Clone)]
pub struct Single {
    pub recipe: Recipe,
    pub split: Split,
    /// Entries for its slots.
    pub lent: usize,
    pub asked: Vec<f64>,
}

/// One comparison of the two libraries. A further kind of comparison is a further case here, drawn, judged and shrunk where the
/// compiler then asks for it.
#[derive(Clone)]
pub enum Case {
    Build(Table, Room, Queries),
    Growth {
        x: Vec<f64>,
        y: Vec<f64>,
        steps: Vec<Step>,
    },
    Reading(Reading),
    Sheets(Sheets),
    Months(Months),
    Section(Single),
    /// A section from its record, with so many of its slots lent and so many entries for the answers.
    Record(Record, usize, usize, Vec<f64>),
}

impl Queries {
    fn places(&mut self) -> impl Iterator<Item = &mut f64> {
        let strips = self.strips.inside.iter_mut();
        let strips = strips.chain(&mut self.strips.anywhere);
        let ends = strips.flat_map(|(a, b)| [a, b]);
        let asked = self.inside.iter_mut().chain(&mut self.anywhere);
        asked.chain(ends)
    }
}

impl Case {
    /// The knots of its table, where it has one.
    pub fn knots(&self) -> &[f64] {
        match self {
            Case::Build(table, ..) => &table.x,
            Case::Growth { x, .. } => x,
            Case::Reading(reading) => &reading.table.x,
            Case::Sheets(sheets) => &sheets.table.x,
            Case::Months(..) | Case::Section(..) | Case::Record(..) => &[],
        }
    }

    /// All that lies on the same line: knots, and where a curve is asked.
    pub fn places(&mut self) -> Vec<&mut f64> {
        match self {
            Case::Build(table, _, queries) => table.x.iter_mut().chain(queries.places()).collect(),
            Case::Growth { x, steps, .. } => {
                let asked = steps.iter_mut().flat_map(|step| step.queries.places());
                x.iter_mut().chain(asked).collect()
            }
            Case::Reading(reading) => {
                let knots = reading.table.x.iter_mut().chain(&mut reading.knots);
                knots.chain(reading.queries.places()).collect()
            }
            Case::Sheets(sheets) => sheets.table.x.iter_mut().collect(),
            Case::Months(months) => months.queries.places().collect(),
            Case::Section(..) | Case::Record(..) => Vec::new(),
        }
    }
}

/// A float by its bits, and as a number for the reader.
struct Float(f64);

impl Display for Float {
    fn fmt(&self, f: &mut Formatter<'_>) -> fmt::Result {
        write!(f, "{:016x} ({:?})", self.0.to_bits(), self.0)
    }
}

fn list(f: &mut Formatter<'_>, name: &str, floats: &[f64]) -> fmt::Result {
    write!(f, "  {name}, {}:", floats.len())?;
    for &x in floats {
        write!(f, " {}", Float(x))?;
    }
    writeln!(f)
}

fn settings(f: &mut Formatter<'_>, settings: &Settings, split: Split) -> fmt::Result {
    writeln!(f, "  quadraticity {}", Float(settings.quadraticity))?;
    writeln!(f, "  monotonicity {}", Float(settings.monotonicity))?;
    writeln!(f, "  positivity {}", settings.positivity)?;
    rule(f, split)
}

fn rule(f: &mut Formatter<'_>, split: Split) -> fmt::Result {
    match split {
        Split::Original => Ok(()),
        Split::Careful => writeln!(f, "  split by the careful rule"),
        Split::Safe => writeln!(f, "  split by the safe rule"),
    }
}

impl Display for Table {
    fn fmt(&self, f: &mut Formatter<'_>) -> fmt::Result {
        settings(f, &self.settings, self.split)?;
        list(f, "knots", &self.x)?;
        list(f, "averages", &self.y)?;
        if self.hold {
            writeln!(f, "  last period held")?;
        }
        if let Some(Seam { count, f_next }) = self.seam {
            writeln!(f, "  seam after {count} sections at {}", Float(f_next))?;
        }
        Ok(())
    }
}

impl Display for Room {
    fn fmt(&self, f: &mut Formatter<'_>) -> fmt::Result {
        for (name, room) in [
            ("nodes", self.nodes),
            ("tags", self.tags),
            ("slots", self.slots),
            ("section counts", self.sections),
            ("record entries", self.tail),
            ("column entries", self.column),
            ("knots", self.knots),
        ] {
            if room != 0 {
                writeln!(f, "  {name} lent: {room:+} of what is needed")?;
            }
        }
        Ok(())
    }
}

impl Display for Queries {
    fn fmt(&self, f: &mut Formatter<'_>) -> fmt::Result {
        if !self.inside.is_empty() {
            list(f, "asked with extrapolation off", &self.inside)?;
        }
        if !self.anywhere.is_empty() {
            list(f, "asked with extrapolation on", &self.anywhere)?;
        }
        if self.breaks {
            writeln!(f, "  asked where formulas change")?;
        }
        write!(f, "{}", self.strips)
    }
}

impl Display for Strips {
    fn fmt(&self, f: &mut Formatter<'_>) -> fmt::Result {
        for (strips, allow) in [(&self.inside, "off"), (&self.anywhere, "on")] {
            for &(a, b) in strips {
                let (a, b) = (Float(a), Float(b));
                writeln!(f, "  strip from {a} to {b}, extrapolation {allow}")?;
            }
        }
        for (i, j) in &self.between {
            writeln!(f, "  strip from knot {i} to knot {j}")?;
        }
        Ok(())
    }
}

impl Display for Step {
    fn fmt(&self, f: &mut Formatter<'_>) -> fmt::Result {
        writeln!(
            f,
            " a step to {} knots and {} averages, localisation {}, final size {}",
            self.knots, self.averages, self.localisation, self.final_size
        )?;
        settings(f, &self.settings, self.split)?;
        match &self.previous {
            Previous::None => writeln!(f, "  from no curve")?,
            Previous::Last => writeln!(f, "  from the last curve, if there is one")?,
            Previous::Damaged(damage) => {
                let Damage {
                    sections,
                    held,
                    tags,
                    slots,
                    tag,
                    slot,
                } = damage;
                writeln!(
                    f,
                    "  from the last curve as one of {sections} sections, held {held}, {tags} tags, {slots} slots"
                )?;
                if let Some((place, tag)) = tag {
                    writeln!(f, "  with tag {place} as {tag:04x}")?;
                }
                if let Some((place, slot)) = slot {
                    writeln!(f, "  with slot {place} as {}", Float(*slot))?;
                }
            }
        }
        write!(f, "{}{}", self.room, self.queries)
    }
}

impl Display for Reading {
    fn fmt(&self, f: &mut Formatter<'_>) -> fmt::Result {
        write!(f, "{}", self.table)?;
        list(f, "knots of the queries", &self.knots)?;
        if (self.tags, self.slots) != (0, 0) {
            writeln!(f, "  tags {:+}, slots {:+}", self.tags, self.slots)?;
        }
        for (place, tag) in &self.new_tags {
            writeln!(f, "  tag {place} as {tag:04x}")?;
        }
        for &(place, slot) in &self.new_slots {
            writeln!(f, "  slot {place} as {}", Float(slot))?;
        }
        if let Some(tail) = &self.tail {
            list(f, "extrapolation record", tail)?;
        }
        for (points, number, into) in &self.records {
            writeln!(
                f,
                "  record {number} of {points} points into {into} entries"
            )?;
        }
        writeln!(f, "  entries for the answer: {}", self.answer)?;
        write!(f, "{}", self.queries)
    }
}

impl Display for Sheets {
    fn fmt(&self, f: &mut Formatter<'_>) -> fmt::Result {
        write!(f, "{}{}", self.table, self.room)?;
        writeln!(f, "  cut at {:?}", self.cuts)?;
        writeln!(f, "  built at once with the cuts {:?} too", self.others)?;
        writeln!(f, "  sheets in the order {:?} too", self.order)?;
        list(
            f,
            "nodes and total handed where the whole is refused",
            &self.given,
        )
    }
}

impl Display for Months {
    fn fmt(&self, f: &mut Formatter<'_>) -> fmt::Result {
        let Asked {
            first,
            last,
            months,
        } = self.asked;
        writeln!(
            f,
            "  from month {first} to month {last}, {months} to a period"
        )?;
        write!(f, "{}{}{}", self.table, self.room, self.queries)
    }
}

impl Display for Case {
    fn fmt(&self, f: &mut Formatter<'_>) -> fmt::Result {
        match self {
            Case::Build(table, room, queries) => write!(f, "build\n{table}{room}{queries}"),
            Case::Growth { x, y, steps } => {
                writeln!(f, "growth")?;
                list(f, "knots", x)?;
                list(f, "averages", y)?;
                steps.iter().try_for_each(|step| write!(f, "{step}"))
            }
            Case::Reading(reading) => write!(f, "reading\n{reading}"),
            Case::Sheets(sheets) => write!(f, "sheets\n{sheets}"),
            Case::Months(months) => write!(f, "months\n{months}"),
            Case::Section(single) => {
                let mut words = String::new();
                single.recipe.push(&mut words);
                writeln!(f, "section{words}\n  slots lent: {}", single.lent)?;
                rule(f, single.split)?;
                list(f, "asked", &single.asked)
            }
            Case::Record(record, slots, answer, asked) => {
                writeln!(f, "record {:04x}", record.tag)?;
                list(f, "slots", &record.slots[..(*slots).min(oracle::FIELDS)])?;
                writeln!(f, "  slots lent: {slots}")?;
                writeln!(f, "  entries for the answers: {answer}")?;
                list(f, "asked", asked)
            }
        }
    }
}

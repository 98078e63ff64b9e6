//! Both sides are asked, and every number is held against the other's.
//!
//! A price, a total or a strip that the original tells and that is not finite is due as refusal 21; what is stored is compared by its bits
//! all the same.
//!
//! What the original can't be asked is judged by the document: more points than the library takes, short buffers, records that are
//! not legal, and counts of the largest number, where the original's own sum overflows. The original has neither a careful nor a safe
//! mode: there its sections are made anew that the mode's rule is about, by the rule as it is written. Nor has it a calendar: by delivery
//! months it is built on the knots of this program's own.

mod asking;
mod columns;
mod compare;
mod growth;
mod knots;
mod months;
mod reading;
mod section;
mod several;
mod sheets;
mod strips;

use havgrunel::lent::{Seam, Tail};
use havgrunel::{ConvexMonotone, FIELDS, MOST_POINTS, SLOTS, Split, ffi};
use oracle::{Record, Settings};

use crate::case::{Case, Queries, Room, Table};
use crate::counts::{Counts, Way};
use crate::expected::{Curve, Rule};
use crate::lent::{Columned, Lent};
use crate::{at_knots, calendar, careful, mark, safe, strip};
use asking::{Asking, breaks};
pub use compare::Mismatch;
use compare::{Agreed, same_answers, same_at_knots, same_fields, same_float, same_marks};
use compare::{same_number, same_tail};

fn method(settings: &Settings, split: Split) -> ConvexMonotone {
    let method = ConvexMonotone::new(
        settings.quadraticity,
        settings.monotonicity,
        settings.positivity,
    );
    // Cases of the original's mode are built as by callers that know of no other.
    match split {
        Split::Original => method,
        split => method.with_split(split),
    }
}

/// One less than the largest number, where no sum overflows and the document has the same answer.
fn askable(count: usize) -> usize {
    count.min(usize::MAX - 1)
}

/// The original's build, or its refusal by number.
fn built(
    settings: &Settings,
    x: &[f64],
    y: &[f64],
    hold: bool,
    seam: Option<oracle::Seam>,
) -> Result<oracle::Curve, u8> {
    let built = oracle::build_with(settings, x, y, hold, seam);
    built.map_err(oracle::Refusal::number)
}

/// The number that is due where the original builds or refuses, of so many points.
fn due<T>(judged: &Result<T, u8>, points: usize, short: bool) -> u8 {
    match judged {
        &Err(number) => number,
        Ok(_) if points > MOST_POINTS => 10,
        Ok(_) if short => 11,
        Ok(_) => 0,
    }
}

pub struct Judge {
    pub counts: Counts,
    lent: Lent,
    /// What the same call is lent once more, with a column.
    beside: Columned,
    /// Where the knots of delivery months go.
    knots: Vec<f64>,
    careful: careful::Rule,
    safe: safe::Rule,
    at_knots: at_knots::Rule,
    strips: strip::Rule,
    marks: mark::Rule,
    calendar: calendar::Rule,
}

impl Default for Judge {
    /// One that judges each mode by its own rule.
    fn default() -> Judge {
        Judge {
            counts: Counts::default(),
            lent: Lent::default(),
            beside: Columned::default(),
            knots: Vec::new(),
            careful: careful::in_period,
            safe: safe::RULE,
            at_knots: at_knots::own,
            strips: strip::RULE,
            marks: mark::RULE,
            calendar: calendar::RULE,
        }
    }
}

impl Judge {
    /// One that judges the careful mode by this rule.
    pub fn by(careful: careful::Rule) -> Judge {
        Judge {
            careful,
            ..Judge::default()
        }
    }

    /// One that judges the safe mode by this rule.
    pub fn safely_by(safe: safe::Rule) -> Judge {
        Judge {
            safe,
            ..Judge::default()
        }
    }

    /// One that judges by this rule what records say behind their sections' own numbers.
    pub fn at_knots_by(at_knots: at_knots::Rule) -> Judge {
        Judge {
            at_knots,
            ..Judge::default()
        }
    }

    /// One that judges strips and columns by this rule.
    pub fn strips_by(strips: strip::Rule) -> Judge {
        Judge {
            strips,
            ..Judge::default()
        }
    }

    /// One that judges by this rule which prices and totals are told.
    pub fn marked_by(marks: mark::Rule) -> Judge {
        Judge {
            marks,
            ..Judge::default()
        }
    }

    /// One that judges delivery months by this calendar.
    pub fn by_calendar(calendar: calendar::Rule) -> Judge {
        Judge {
            calendar,
            ..Judge::default()
        }
    }

    /// The rule that is due in a mode; none where it is the original's own. Without positivity the safe mode is the original's.
    fn rule(&self, split: Split, positivity: bool) -> Option<Rule> {
        match split {
            Split::Careful => Some(Rule::Careful(self.careful)),
            Split::Safe if positivity => Some(Rule::Safe(self.safe)),
            Split::Original | Split::Safe => None,
        }
    }

    fn table_rule(&self, table: &Table) -> Option<Rule> {
        self.rule(table.split, table.settings.positivity)
    }

    pub fn case(&mut self, case: &Case) -> Agreed {
        self.counts.cases += 1;
        match case {
            Case::Build(table, room, queries) => self.build(table, room, queries),
            Case::Growth { x, y, steps } => self.growth(x, y, steps),
            Case::Reading(reading) => self.reading(reading),
            Case::Sheets(sheets) => self.sheets(sheets),
            Case::Months(months) => self.months(months),
            Case::Section(single) => self.section(single),
            Case::Record(record, slots, answer, asked) => {
                self.record(record, *slots, *answer, asked)
            }
        }
    }

    /// The library's build into freshly lent buffers.
    fn lay(&mut self, table: &Table, room: &Room) -> u8 {
        self.lent.lend(table.x.len(), room);
        let (buffers, sections, tail) = self.lent.parts();
        ffi::build(
            &table.x,
            &table.y,
            method(&table.settings, table.split),
            table.hold,
            lent_seam(table),
            buffers,
            sections,
            tail,
        )
    }

    /// The same build with a column, into buffers beside those.
    fn lay_with_column(&mut self, table: &Table, room: &Room) -> u8 {
        self.beside.lend(table.x.len(), room);
        let (buffers, sections, tail) = self.beside.lent.parts();
        ffi::build_with_column(
            &table.x,
            &table.y,
            method(&table.settings, table.split),
            table.hold,
            lent_seam(table),
            buffers,
            sections,
            tail,
            &mut self.beside.column,
        )
    }

    fn build(&mut self, table: &Table, room: &Room, queries: &Queries) -> Agreed {
        let points = table.x.len();
        self.counts.builds += 1;
        self.counts.largest += u64::from(points >= MOST_POINTS - 1);
        let number = self.lay(table, room);
        let short = self.lent.short(points);
        let built = self.same_build("a build's refusal", table, number, short)?;
        let with_column = self.lay_with_column(table, room);
        let curve = match built {
            Ok(curve) => curve,
            Err(due) => {
                self.refused_knots(&table.x)?;
                return self.same_with_column(&table.x, with_column, due, None);
            }
        };
        self.same_with_column(&table.x, with_column, number, Some(&curve))?;
        self.ask(&table.x, table.hold, curve, queries)?;
        Ok(())
    }

    /// That a build of this table, which told this number and was lent too little or not, left the curve that is due, or nothing where it is
    /// refused. Hands back that curve, or the number.
    fn same_build(
        &mut self,
        refusal: &'static str,
        table: &Table,
        number: u8,
        short: bool,
    ) -> Result<Result<Curve, u8>, Mismatch> {
        let seam = table.seam.map(|seam| {
            self.counts.largest_seam += u64::from(seam.count == usize::MAX);
            oracle::Seam {
                count: askable(seam.count),
                ..seam
            }
        });
        let Table {
            settings,
            hold,
            x,
            y,
            ..
        } = table;
        let rule = self.table_rule(table);
        let judged = built(settings, x, y, *hold, seam);
        let judged = Rule::due(rule, y, judged);
        let due = due(&judged, x.len(), short);
        self.counts.number(number);
        same_number(refusal, number, due)?;
        let curve = match judged {
            Ok(curve) if due == 0 => curve,
            _ => {
                self.lent.untouched(None)?;
                return Ok(Err(due));
            }
        };
        let nodes = oracle::nodes(settings, x, y, seam);
        let nodes = nodes.expect("a table that builds has nodes");
        let curve = Curve::new(curve, settings, x, y, rule);
        self.counts.made(Way::Built, table.split, curve.seen());
        self.same_curve(x, &curve, &nodes)?;
        Ok(Ok(curve))
    }

    /// That what was written is this curve, and that nothing else was.
    fn same_curve(&mut self, knots: &[f64], curve: &Curve, nodes: &[f64]) -> Agreed {
        let (lent, points) = (&self.lent, knots.len());
        lent.untouched(Some(points))?;
        let sections = lent.sections[0];
        if sections != curve.sections() || sections != points - 1 {
            let told = format!(
                "{sections} sections, and the original has {}",
                curve.sections()
            );
            return Err(Mismatch::new("the count of sections", told));
        }
        for (place, (&mine, &other)) in lent.nodes.iter().zip(nodes).enumerate() {
            same_float("a node", || format!("node {place}"), mine, other)?;
        }
        for place in 0..sections {
            self.same_section(knots, curve, place)?;
        }
        self.lent.written(0, sections)?;
        same_tail(&self.lent.tail, &curve.extrapolation())
    }

    /// That the section written at a place is this curve's, by its record and at its last knot.
    fn same_section(&mut self, knots: &[f64], curve: &Curve, place: usize) -> Agreed {
        let lent = &self.lent;
        let record = curve.record(place);
        let asked = curve.at_knots(place);
        self.counts.built(record.tag, &asked);
        let slots = &lent.slots[SLOTS * place..][..SLOTS];
        let (fields, at_knots) = slots.split_at(FIELDS);
        let what = || format!("section {place}");
        same_fields(lent.tags[place], fields, &record, what)?;
        same_at_knots(record.tag, at_knots, (self.at_knots)(&asked), what)?;
        let (mut answers, mut finite) = ([0.0; 3], [false; 2]);
        let at = knots[place + 1];
        let number = ffi::section(lent.tags[place], slots, at, &mut answers, &mut finite);
        same_number("a built section's refusal", number, 0)?;
        let due = [
            curve.section_value(place, at),
            curve.section_primitive(place, at),
            curve.f_next(place),
        ];
        same_answers(&answers, &due, at)?;
        same_marks(self.marks, &finite, &due, at, &mut self.counts.marks)
    }
}

/// The seam of a table, as the library is lent it.
fn lent_seam(table: &Table) -> Option<Seam> {
    table.seam.map(|seam| Seam {
        count: seam.count,
        node: seam.f_next,
    })
}

fn tail(told: &[f64]) -> Tail {
    Tail {
        value: told[0],
        total: told[1],
        from: told[2],
    }
}

/// The section's own part of the record at a place.
fn record_at(tags: &[u16], slots: &[f64], place: usize) -> Record {
    let fields = &slots[SLOTS * place..][..FIELDS];
    Record {
        tag: tags[place],
        slots: fields.try_into().expect("a section's own numbers"),
    }
}

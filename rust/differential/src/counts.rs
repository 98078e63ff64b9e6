//! How often what occurred.

use std::fmt::{self, Display, Formatter};

use oracle::legal_tags;

use crate::at_knots::Asked;
use crate::calendar::MONTHS_NOT_PERIODS;
use crate::expected::{AVERAGE_BELOW_ZERO, Seen, Splits};
use crate::mark::NOT_FINITE;
use crate::strip::STRIP_ENDS_NOT_RISING;
use at_knots::AtKnots;
use havgrunel::Split;
use marks::Marks;
use months::Months;
use safe::Safe;
use strips::Strips;

mod at_knots;
pub mod marks;
pub mod months;
pub mod safe;
pub mod strips;

/// Refusal numbers that curves, records, sheets and delivery months can meet.
const REFUSALS: [u8; 21] = [
    1,
    2,
    3,
    4,
    5,
    6,
    7,
    8,
    9,
    10,
    11,
    12,
    13,
    14,
    15,
    16,
    STRIP_ENDS_NOT_RISING,
    MONTHS_NOT_PERIODS,
    NOT_FINITE,
    CUTS_NOT_INNER,
    AVERAGE_BELOW_ZERO,
];

pub const CUTS_NOT_INNER: u8 = 28;

/// One more than the largest of them.
const NUMBERS: usize = AVERAGE_BELOW_ZERO as usize + 1;

/// How a curve came about.
#[derive(Clone, Copy)]
pub enum Way {
    Built,
    Cut,
    Grown,
}

#[derive(Clone)]
pub struct Counts {
    pub cases: u64,
    pub builds: u64,
    pub steps: u64,
    pub queries: u64,
    pub sections: u64,
    pub records: u64,
    pub roots: u64,
    /// Tables of the largest sizes, and what the original can't be asked.
    pub largest: u64,
    pub largest_seam: u64,
    pub largest_window: u64,
    /// Tables refused for a bad knot or a falling pair, and those whose bad knot stands behind a falling pair.
    pub refused_knots: u64,
    pub bad_behind_a_fall: u64,
    /// Tables that were cut, those of the largest sizes and those of which every sheet was accepted; sheets, and those accepted.
    pub cut: u64,
    pub cut_largest: u64,
    pub cut_whole: u64,
    pub sheets: u64,
    pub sheets_accepted: u64,
    /// What was accepted in the careful mode: whole tables, tables in sheets and steps of growth.
    pub careful_builds: u64,
    pub careful_cut: u64,
    pub careful_steps: u64,
    /// Their sections that the original splits, those of them of a ratio above 1, and those that the careful rule splits too.
    split: u64,
    split_above: u64,
    kept_split: u64,
    /// Careful parabolas by themselves that the original splits, by their ratios.
    ratios: [u64; RATIOS.len()],
    pub safe: Safe,
    at_knots: AtKnots,
    pub strips: Strips,
    pub marks: Marks,
    pub months: Months,
    refused: [u64; NUMBERS],
    /// Sections of curves, and sections by themselves, by the upper bits of their tags.
    built: [u64; 512],
    single: [u64; 512],
}

/// What a section is counted as: all bits of one of the masks' parts.
const KINDS: [(&str, u16, u16); 11] = [
    ("EverywhereConstant", 0xff80, 0x0100),
    ("ConstantGrad", 0xff80, 0x0200),
    ("ConvexMonotone2", 0x0f00, 0x0300),
    ("ConvexMonotone3", 0x0f00, 0x0400),
    ("ConvexMonotone4", 0x0f00, 0x0500),
    ("ConvexMonotone4Min, whole", 0x0f80, 0x0600),
    ("ConvexMonotone4Min, split", 0x0f80, 0x0680),
    ("Quadratic", 0xe000, 0x2000),
    ("QuadraticMin, whole", 0xf000, 0x4000),
    ("QuadraticMin, split", 0xf000, 0x5000),
    ("combination", 0, 0),
];

/// A sort of ratio, and what holds of one.
type Ratio = (&'static str, fn(f64) -> bool);

/// What a ratio is counted as: the first of these that holds.
const RATIOS: [Ratio; 8] = [
    ("not a number", f64::is_nan),
    ("infinite", f64::is_infinite),
    ("below 0", |ratio| ratio < 0.0),
    ("exactly 0", |ratio| ratio == 0.0),
    ("above 0, below 1", |ratio| ratio < 1.0),
    ("exactly 1", |ratio| ratio == 1.0),
    ("just above 1", |ratio| ratio <= 1.0 + 4.0 * f64::EPSILON),
    ("well above 1", |_| true),
];

fn count(counts: &mut [u64], sorts: &[Ratio], ratio: f64) {
    let sort = sorts.iter().position(|(_, holds)| holds(ratio));
    counts[sort.expect("the last holds of all")] += 1;
}

fn combined(tag: u16) -> bool {
    tag & 0xf000 != 0 && tag & 0x0f00 != 0
}

impl Default for Counts {
    fn default() -> Counts {
        Counts {
            cases: 0,
            builds: 0,
            steps: 0,
            queries: 0,
            sections: 0,
            records: 0,
            roots: 0,
            largest: 0,
            largest_seam: 0,
            largest_window: 0,
            refused_knots: 0,
            bad_behind_a_fall: 0,
            cut: 0,
            cut_largest: 0,
            cut_whole: 0,
            sheets: 0,
            sheets_accepted: 0,
            careful_builds: 0,
            careful_cut: 0,
            careful_steps: 0,
            split: 0,
            split_above: 0,
            kept_split: 0,
            ratios: [0; RATIOS.len()],
            safe: Safe::default(),
            at_knots: AtKnots::default(),
            strips: Strips::default(),
            marks: Marks::default(),
            months: Months::default(),
            refused: [0; NUMBERS],
            built: [0; 512],
            single: [0; 512],
        }
    }
}

impl Counts {
    /// A call's number, 0 where it was accepted.
    pub fn number(&mut self, number: u8) {
        self.refused[usize::from(number)] += 1;
    }

    /// A section of a curve, and what its record says behind its own numbers.
    pub fn built(&mut self, tag: u16, asked: &Asked<'_>) {
        self.built[usize::from(tag >> 7)] += 1;
        self.at_knots.see(asked);
    }

    pub fn single(&mut self, tag: u16) {
        self.single[usize::from(tag >> 7)] += 1;
    }

    /// A curve that was accepted in a mode, and what the mode's rule did to it.
    pub fn made(&mut self, way: Way, split: Split, seen: Option<Seen>) {
        match seen {
            Some(Seen::Careful(splits)) => {
                *match way {
                    Way::Built => &mut self.careful_builds,
                    Way::Cut => &mut self.careful_cut,
                    Way::Grown => &mut self.careful_steps,
                } += 1;
                self.splits(splits);
            }
            Some(Seen::Safe(safely)) => self.safe.made(way, safely),
            None => self.safe.free += u64::from(split == Split::Safe),
        }
    }

    /// The sections of a careful curve.
    fn splits(&mut self, splits: Splits) {
        self.split += splits.original;
        self.split_above += splits.above;
        self.kept_split += splits.kept;
    }

    /// The ratio of a careful parabola by itself, where the original splits it.
    pub fn ratio(&mut self, ratio: f64) {
        count(&mut self.ratios, &RATIOS, ratio);
    }

    /// The sections that the original splits and the careful rule leaves whole.
    pub fn left_whole(&self) -> u64 {
        self.split - self.kept_split
    }

    pub fn add(&mut self, other: &Counts) {
        for (mine, others) in [
            (&mut self.cases, other.cases),
            (&mut self.builds, other.builds),
            (&mut self.steps, other.steps),
            (&mut self.queries, other.queries),
            (&mut self.sections, other.sections),
            (&mut self.records, other.records),
            (&mut self.roots, other.roots),
            (&mut self.largest, other.largest),
            (&mut self.largest_seam, other.largest_seam),
            (&mut self.largest_window, other.largest_window),
            (&mut self.refused_knots, other.refused_knots),
            (&mut self.bad_behind_a_fall, other.bad_behind_a_fall),
            (&mut self.cut, other.cut),
            (&mut self.cut_largest, other.cut_largest),
            (&mut self.cut_whole, other.cut_whole),
            (&mut self.sheets, other.sheets),
            (&mut self.sheets_accepted, other.sheets_accepted),
            (&mut self.careful_builds, other.careful_builds),
            (&mut self.careful_cut, other.careful_cut),
            (&mut self.careful_steps, other.careful_steps),
            (&mut self.split, other.split),
            (&mut self.split_above, other.split_above),
            (&mut self.kept_split, other.kept_split),
        ] {
            *mine += others;
        }
        self.safe.add(&other.safe);
        self.at_knots.add(&other.at_knots);
        self.strips.add(&other.strips);
        self.marks.add(&other.marks);
        self.months.add(&other.months);
        for (mine, others) in [
            (&mut self.refused[..], &other.refused[..]),
            (&mut self.ratios, &other.ratios),
            (&mut self.built, &other.built),
            (&mut self.single, &other.single),
        ] {
            for (mine, others) in mine.iter_mut().zip(others) {
                *mine += others;
            }
        }
    }

    /// How many sections of curves were of this kind.
    fn kind(&self, mask: u16, bits: u16) -> u64 {
        let counted = |tag: u16| match mask {
            0 => combined(tag),
            _ => tag & mask == bits,
        };
        let tags = legal_tags().into_iter().filter(|&tag| counted(tag));
        tags.map(|tag| self.built[usize::from(tag >> 7)]).sum()
    }

    /// What should occur in any run of some length and did not.
    pub fn missing(&self) -> Vec<String> {
        let mut missing = Vec::new();
        for (name, mask, bits) in KINDS {
            if self.kind(mask, bits) == 0 {
                missing.push(format!("no curve had a section of the kind {name}"));
            }
        }
        for tag in legal_tags() {
            if self.single[usize::from(tag >> 7)] == 0 {
                missing.push(format!("no section by itself had the tag {tag:04x}"));
            }
        }
        if self.refused[0] == 0 {
            missing.push("no call was accepted".into());
        }
        for number in REFUSALS {
            if self.refused[usize::from(number)] == 0 {
                missing.push(format!("refusal {number} did not occur"));
            }
        }
        if self.bad_behind_a_fall == 0 {
            missing.push("no bad knot stood behind a falling pair".into());
        }
        if self.cut_whole == 0 {
            missing.push("no table was cut with all of its sheets accepted".into());
        }
        if self.sheets_accepted == 0 {
            missing.push("no sheet was accepted".into());
        }
        for (count, what) in [
            (self.careful_builds, "no careful table was built"),
            (self.careful_cut, "no careful table was cut"),
            (self.careful_steps, "no careful table grew"),
            (self.split_above, "no careful table had a ratio above 1"),
            (self.kept_split, "the careful rule kept no split"),
            (self.left_whole(), "the careful rule left no section whole"),
        ] {
            if count == 0 {
                missing.push(what.into());
            }
        }
        for ((name, _), &count) in RATIOS.iter().zip(&self.ratios) {
            if count == 0 {
                missing.push(format!("no careful parabola had a ratio {name}"));
            }
        }
        let rows = [
            self.safe.rows(),
            self.at_knots.rows(),
            self.strips.rows(),
            self.marks.rows(),
            self.months.rows(),
        ];
        let none = rows.into_iter().flatten().filter(|(_, count)| *count == 0);
        missing.extend(none.map(|(name, _)| format!("none of this: {name}")));
        missing
    }
}

impl Display for Counts {
    fn fmt(&self, f: &mut Formatter<'_>) -> fmt::Result {
        let mut row = |name: &str, count: u64| writeln!(f, "{name:<44}{count:>14}");
        row("cases", self.cases)?;
        row("builds, refused ones too", self.builds)?;
        row("steps of growth, refused ones too", self.steps)?;
        row("values and primitives asked of curves", self.queries)?;
        row("sections made and asked by themselves", self.sections)?;
        row("records read from curves", self.records)?;
        row("roots", self.roots)?;
        row("tables of 4095 points and more", self.largest)?;
        row("seam counts of the largest number", self.largest_seam)?;
        row("localisations of the largest number", self.largest_window)?;
        row("tables refused for their knots", self.refused_knots)?;
        row("bad knots behind a falling pair", self.bad_behind_a_fall)?;
        row("tables cut into sheets, refused ones too", self.cut)?;
        row("tables cut of 4095 points and more", self.cut_largest)?;
        row("tables cut, all sheets accepted", self.cut_whole)?;
        row("sheets, refused ones too", self.sheets)?;
        row("sheets accepted", self.sheets_accepted)?;
        row("careful tables built", self.careful_builds)?;
        row("careful tables cut, all sheets accepted", self.careful_cut)?;
        row("careful steps of growth", self.careful_steps)?;
        row("in these: sections that the original splits", self.split)?;
        row("in these: of a ratio above 1", self.split_above)?;
        row("in these: split by the careful rule, too", self.kept_split)?;
        row("in these: left whole by it", self.left_whole())?;
        for ((name, _), &count) in RATIOS.iter().zip(&self.ratios) {
            row(&format!("careful by itself, ratio {name}"), count)?;
        }
        for (name, count) in self.safe.rows() {
            row(&name, count)?;
        }
        row("calls accepted", self.refused[0])?;
        for number in REFUSALS {
            let count = self.refused[usize::from(number)];
            row(&format!("refusal {number}"), count)?;
        }
        for (name, mask, bits) in KINDS {
            row(&format!("in curves: {name}"), self.kind(mask, bits))?;
        }
        let rows = [
            self.at_knots.rows(),
            self.strips.rows(),
            self.marks.rows(),
            self.months.rows(),
        ];
        for (name, count) in rows.into_iter().flatten() {
            row(&name, count)?;
        }
        for tag in legal_tags() {
            let place = usize::from(tag >> 7);
            let (built, single) = (self.built[place], self.single[place]);
            writeln!(
                f,
                "{:<44}{built:>14}, by itself {single}",
                format!("in curves: tag {tag:04x}")
            )?;
        }
        Ok(())
    }
}

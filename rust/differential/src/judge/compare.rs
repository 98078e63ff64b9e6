//! Numbers of the library held against those that are due.

use oracle::Record;
use oracle::words::{bits, same};

use crate::counts::marks::{Marks, Of};
use crate::mark;

/// A number that is not the other side's.
#[derive(Clone)]
pub struct Mismatch {
    /// What sort of number it is; a smaller case must differ in the same.
    pub part: &'static str,
    pub told: String,
    /// The query that showed it, and whether extrapolation was on.
    pub query: Option<(bool, f64)>,
    /// The strip that showed it, and whether extrapolation was on, or the two places.
    pub strip: Option<(bool, (f64, f64))>,
    pub between: Option<(usize, usize)>,
    /// The step of growth that showed it.
    pub step: usize,
}

impl Mismatch {
    pub fn new(part: &'static str, told: String) -> Mismatch {
        Mismatch {
            part,
            told,
            query: None,
            strip: None,
            between: None,
            step: 0,
        }
    }
}

pub(super) type Agreed = Result<(), Mismatch>;

pub(super) fn same_number(part: &'static str, mine: u8, other: u8) -> Agreed {
    if mine == other {
        return Ok(());
    }
    let told = format!("the library's number is {mine}, and {other} is due");
    Err(Mismatch::new(part, told))
}

pub(super) fn same_float(
    part: &'static str,
    what: impl FnOnce() -> String,
    mine: f64,
    other: f64,
) -> Agreed {
    if same(mine, other) {
        return Ok(());
    }
    let told = format!(
        "{}: the library has {:016x} ({mine:?}), and {:016x} ({other:?}) is due",
        what(),
        bits(mine),
        bits(other)
    );
    Err(Mismatch::new(part, told))
}

pub(super) fn same_tail(mine: &[f64], due: &[f64; 3]) -> Agreed {
    for (place, (&mine, &other)) in mine.iter().zip(due).enumerate() {
        let what = || format!("extrapolation record, entry {place}");
        same_float("the extrapolation record", what, mine, other)?;
    }
    Ok(())
}

/// That a section's own numbers are these.
pub(super) fn same_fields(
    tag: u16,
    fields: &[f64],
    due: &Record,
    what: impl Fn() -> String,
) -> Agreed {
    if tag != due.tag {
        let told = format!(
            "{}: the library has {tag:04x}, and {:04x} is due",
            what(),
            due.tag
        );
        return Err(Mismatch::new("a section's tag", told));
    }
    assert_eq!(fields.len(), due.slots.len(), "a section has so many");
    for (place, (&mine, &other)) in fields.iter().zip(&due.slots).enumerate() {
        let what = || format!("{}, tag {tag:04x}, slot {place}", what());
        same_float("a section's slot", what, mine, other)?;
    }
    Ok(())
}

/// That a record says this behind its section's own numbers.
pub(super) fn same_at_knots(
    tag: u16,
    mine: &[f64],
    due: [f64; 3],
    what: impl Fn() -> String,
) -> Agreed {
    let parts = [
        "a price at a left knot",
        "a price at a right knot",
        "a total after a period",
    ];
    assert_eq!(mine.len(), parts.len(), "a record has so many more");
    for ((part, &mine), other) in parts.into_iter().zip(mine).zip(due) {
        let what = || format!("{part} in {}, tag {tag:04x}", what());
        same_float(part, what, mine, other)?;
    }
    Ok(())
}

pub(super) fn same_answers(mine: &[f64], due: &[f64; 3], at: f64) -> Agreed {
    let parts = ["a value", "a primitive", "a section's last node"];
    for ((part, &mine), &other) in parts.into_iter().zip(mine).zip(due) {
        let what = || format!("{part} of a section at {:016x} ({at:?})", at.to_bits());
        same_float(part, what, mine, other)?;
    }
    Ok(())
}

/// That a section marks its price and its total so. Its numbers are handed back whatever they are, and so are compared by their bits as
/// well.
pub(super) fn same_marks(
    rule: mark::Rule,
    finite: &[bool],
    due: &[f64; 3],
    at: f64,
    marks: &mut Marks,
) -> Agreed {
    let [value, primitive, _] = *due;
    let asked = mark::Asked { value, primitive };
    for (place, (part, due, of)) in [
        ("a value's mark", (rule.value)(asked), Of::SectionValues),
        (
            "a primitive's mark",
            (rule.primitive)(asked),
            Of::SectionPrimitives,
        ),
    ]
    .into_iter()
    .enumerate()
    {
        if finite[place] != due.is_ok() {
            let told = format!(
                "{part} at {:016x} ({at:?}): the library says finite: {}",
                at.to_bits(),
                finite[place]
            );
            return Err(Mismatch::new(part, told));
        }
        if due.is_err() {
            marks.answer(of, [value, primitive][place]);
        }
    }
    Ok(())
}

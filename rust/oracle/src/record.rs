//! A section as the document stores it: a tag and 24 floats. What a curve's record adds to these, `knots` tells.

use crate::words;

/// The floats of a section itself, which stand first in a record.
pub const FIELDS: usize = 24;

const FIRST_QUADRATIC: usize = 1;
const FIRST_OTHER: usize = 13;

/// The record of a section by itself.
#[derive(Clone, Copy, Debug)]
pub struct Record {
    pub tag: u16,
    pub slots: [f64; FIELDS],
}

impl Record {
    /// A record with no part yet.
    pub fn empty() -> Record {
        Record {
            tag: 0,
            slots: [0.0; FIELDS],
        }
    }

    /// Writes a quadratic part; alone it counts in full.
    pub fn put_quadratic(&mut self, code: u16, split: bool, fields: &[f64]) {
        self.tag |= code << 13 | u16::from(split) << 12;
        self.slots[0] = 1.0;
        self.slots[FIRST_QUADRATIC..][..fields.len()].copy_from_slice(fields);
        debug_assert!(FIRST_QUADRATIC + fields.len() <= FIRST_OTHER);
    }

    /// Writes the other part.
    pub fn put_other(&mut self, code: u16, split: bool, fields: &[f64]) {
        self.tag |= code << 8 | u16::from(split) << 7;
        self.slots[FIRST_OTHER..][..fields.len()].copy_from_slice(fields);
    }

    /// The slots as bits, one pattern for all NaNs.
    pub fn bits(&self) -> [u64; FIELDS] {
        self.slots.map(words::bits)
    }

    /// Whether two records agree in every bit, any NaN matching any NaN.
    pub fn same(&self, other: &Record) -> bool {
        self.tag == other.tag && self.bits() == other.bits()
    }
}

/// The 25 tags that can stand in a record, in rising order.
pub fn legal_tags() -> Vec<u16> {
    let quadratics = [0x2000, 0x4000, 0x5000];
    let convex = [0x0300, 0x0400, 0x0500, 0x0600, 0x0680];
    let mut tags = vec![0x0100, 0x0200];
    tags.extend(convex);
    for quadratic in quadratics {
        tags.push(quadratic);
        tags.extend(convex.map(|other| quadratic | other));
    }
    tags
}

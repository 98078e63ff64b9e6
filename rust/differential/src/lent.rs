//! Buffers as they are lent, marked so that a write where none belongs is seen.

use std::ops::Range;

use havgrunel::SLOTS;
use havgrunel::lent::Buffers;
use oracle::words::same;

use crate::case::Room;
use crate::judge::Mismatch;

const OLD_TAG: u16 = 0xa5c3;
/// What stands in a count before a call, and one more at each place.
pub const OLD_COUNT: usize = 0x5a3c_0000;

/// What stands at a place before a call: a NaN that no operation makes, another one at each place.
pub fn old(place: usize) -> f64 {
    f64::from_bits(0x7ff4_0000_0000_0001 + place as u64)
}

/// Whether a float is the one that stood at this place.
pub fn is_old(place: usize, x: f64) -> bool {
    x.to_bits() == old(place).to_bits()
}

#[derive(Default)]
pub struct Lent {
    pub nodes: Vec<f64>,
    pub tags: Vec<u16>,
    pub slots: Vec<f64>,
    pub sections: Vec<usize>,
    pub tail: Vec<f64>,
}

/// What the curve of so many points takes of each buffer.
fn needs(points: usize) -> [usize; 5] {
    let sections = points.saturating_sub(1);
    [points, sections, SLOTS * sections, 1, 3]
}

/// Puts so many marks into a buffer, and nothing else.
pub fn mark(floats: &mut Vec<f64>, count: usize) {
    floats.clear();
    floats.extend((0..count).map(old));
}

/// That these entries of a buffer are as they were; what lies beyond it is none.
pub fn marked(name: &str, floats: &[f64], part: Range<usize>) -> Result<(), Mismatch> {
    for place in part.start..part.end.min(floats.len()) {
        if !is_old(place, floats[place]) {
            let told = format!("{name} {place} of {} was written to", floats.len());
            return Err(Mismatch::new("a lent buffer", told));
        }
    }
    Ok(())
}

fn marked_tags(tags: &[u16], part: Range<usize>) -> Result<(), Mismatch> {
    for place in part.start..part.end.min(tags.len()) {
        if tags[place] != OLD_TAG ^ place as u16 {
            let told = format!("tag {place} of {} was written to", tags.len());
            return Err(Mismatch::new("a lent buffer", told));
        }
    }
    Ok(())
}

impl Lent {
    /// Lends buffers for so many points, with the marks in them.
    pub fn lend(&mut self, points: usize, room: &Room) {
        let [nodes, tags, slots, sections, tail] = needs(points);
        let lent = |need: usize, room: i32| need.saturating_add_signed(room as isize);
        mark(&mut self.nodes, lent(nodes, room.nodes));
        mark(&mut self.slots, lent(slots, room.slots));
        mark(&mut self.tail, lent(tail, room.tail));
        self.tags.clear();
        self.tags
            .extend((0..lent(tags, room.tags)).map(|place| OLD_TAG ^ place as u16));
        self.sections.clear();
        self.sections
            .extend((0..lent(sections, room.sections)).map(|place| OLD_COUNT + place));
    }

    pub fn parts(&mut self) -> (Buffers<'_>, &mut [usize], &mut [f64]) {
        let buffers = Buffers {
            nodes: &mut self.nodes,
            tags: &mut self.tags,
            slots: &mut self.slots,
        };
        (buffers, &mut self.sections, &mut self.tail)
    }

    /// Whether one is too short for so many points.
    pub fn short(&self, points: usize) -> bool {
        let [nodes, tags, slots, sections, tail] = needs(points);
        self.nodes.len() < nodes
            || self.tags.len() < tags
            || self.slots.len() < slots
            || self.sections.len() < sections
            || self.tail.len() < tail
    }

    /// That nothing changed beyond the entries of a curve of so many points, or anywhere for none.
    pub fn untouched(&self, points: Option<usize>) -> Result<(), Mismatch> {
        let [nodes, tags, slots, sections, tail] = points.map_or([0; 5], needs);
        marked("node", &self.nodes, nodes..usize::MAX)?;
        marked("slot", &self.slots, slots..usize::MAX)?;
        marked("record entry", &self.tail, tail..usize::MAX)?;
        marked_tags(&self.tags, tags..usize::MAX)?;
        for (place, &count) in self.sections.iter().enumerate().skip(sections) {
            if count != OLD_COUNT + place {
                let told = format!(
                    "section count {place} of {} was written to",
                    self.sections.len()
                );
                return Err(Mismatch::new("a lent buffer", told));
            }
        }
        Ok(())
    }

    /// That the same stands here as in buffers that were lent as long: the same numbers, and the same places left alone.
    pub fn same_as(&self, other: &Lent) -> Result<(), Mismatch> {
        for (name, mine, others) in [
            ("node", &self.nodes, &other.nodes),
            ("slot", &self.slots, &other.slots),
            ("record entry", &self.tail, &other.tail),
        ] {
            let alike = |place: usize| {
                let (mine, other) = (mine[place], others[place]);
                same(mine, other) && is_old(place, mine) == is_old(place, other)
            };
            if let Some(place) = (0..mine.len()).find(|&place| !alike(place)) {
                let told = format!(
                    "{name} {place} is {:?} and {:?}",
                    mine[place], others[place]
                );
                return Err(Mismatch::new("a curve with a column", told));
            }
        }
        if (&self.tags, &self.sections) != (&other.tags, &other.sections) {
            let told = "its tags or its count of sections".into();
            return Err(Mismatch::new("a curve with a column", told));
        }
        Ok(())
    }

    /// Whether nodes, tags or slots are too short for so many points.
    pub fn short_for_sheets(&self, points: usize) -> bool {
        let [nodes, tags, slots, ..] = needs(points);
        self.nodes.len() < nodes || self.tags.len() < tags || self.slots.len() < slots
    }

    /// That every node and slot of a sheet was written, since a mark would pass for any NaN.
    pub fn written(&self, from: usize, to: usize) -> Result<(), Mismatch> {
        let nodes = (from..to + 1).map(|place| ("node", place, self.nodes[place]));
        let slots = SLOTS * from..SLOTS * to;
        let slots = slots.map(|place| ("slot", place, self.slots[place]));
        for (name, place, x) in nodes.chain(slots) {
            if is_old(place, x) {
                let told = format!("{name} {place} was not written");
                return Err(Mismatch::new("an entry left as it was", told));
            }
        }
        Ok(())
    }

    /// That nothing changed outside these sheets, each from one knot to another and in rising order.
    pub fn untouched_outside(
        &self,
        sheets: impl Iterator<Item = (usize, usize)>,
    ) -> Result<(), Mismatch> {
        let (mut node, mut section) = (0, 0);
        for (from, to) in sheets {
            marked("node", &self.nodes, node..from)?;
            marked_tags(&self.tags, section..from)?;
            marked("slot", &self.slots, SLOTS * section..SLOTS * from)?;
            (node, section) = (to + 1, to);
        }
        marked("node", &self.nodes, node..usize::MAX)?;
        marked_tags(&self.tags, section..usize::MAX)?;
        marked("slot", &self.slots, SLOTS * section..usize::MAX)
    }
}

/// Buffers with room for a column.
#[derive(Default)]
pub struct Columned {
    pub lent: Lent,
    pub column: Vec<f64>,
}

impl Columned {
    /// Lends buffers for so many points, with the marks in them.
    pub fn lend(&mut self, points: usize, room: &Room) {
        self.lent.lend(points, room);
        let entries = points.saturating_add_signed(room.column as isize);
        mark(&mut self.column, entries);
    }
}

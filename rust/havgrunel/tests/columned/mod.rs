//! Curves built with their columns, in buffers that are lent: what a build writes, and what is asked of it.

use crate::asked::{self, OLD, bits, finite};
use crate::drawn;
use havgrunel::lent::{self, Buffers, Curve, Seam, Tail};
use havgrunel::{Answers, ConvexMonotone, FIELDS, ManyRefused, Refusal, SLOTS, Section, Split};
use oracle::answers::rng::Rng;

/// The bounds of ordinary size: 2 to the 80th and to the -40th power.
pub const MOST: f64 = (1_u128 << 80) as f64;
pub const LEAST: f64 = 1.0 / (1_u128 << 40) as f64;

pub fn method(rng: &mut Rng) -> ConvexMonotone {
    let quadraticity = rng.pick(&[0.0, 0.3, 1.0]);
    let method = ConvexMonotone::new(quadraticity, rng.pick(&[0.0, 0.7, 1.0]), rng.chance(2));
    method.with_split([Split::Original, Split::Careful, Split::Safe][rng.below(3) as usize])
}

/// Everything that a build writes.
#[derive(Clone, Debug)]
pub struct Written {
    pub nodes: Vec<f64>,
    pub tags: Vec<u16>,
    pub slots: Vec<f64>,
    pub column: Vec<f64>,
}

impl Written {
    /// Room for so many points, and for one entry more of a column.
    pub fn room(points: usize) -> Written {
        let sections = points.saturating_sub(1);
        Written {
            nodes: vec![OLD; points],
            tags: vec![7; sections],
            slots: vec![OLD; SLOTS * sections],
            column: vec![OLD; points + 1],
        }
    }

    pub fn lent(&mut self) -> (Buffers<'_>, &mut [f64]) {
        let buffers = Buffers {
            nodes: &mut self.nodes,
            tags: &mut self.tags,
            slots: &mut self.slots,
        };
        (buffers, &mut self.column)
    }

    /// All but the column, by its bits.
    pub fn beside_the_column(&self) -> (Vec<u64>, &[u16], Vec<u64>) {
        (bits(&self.nodes), &self.tags, bits(&self.slots))
    }
}

/// A curve over its knots, with what was written of it.
pub struct Built {
    pub knots: Vec<f64>,
    pub curve: Curve,
    pub written: Written,
}

impl Built {
    pub fn value(&self, x: f64) -> Result<f64, Refusal> {
        let Written { tags, slots, .. } = &self.written;
        lent::value(&self.knots, &self.curve, tags, slots, x)
    }

    pub fn values(&self, xs: &[f64], answers: &mut [f64]) -> Result<(), ManyRefused> {
        let Written { tags, slots, .. } = &self.written;
        lent::values(&self.knots, &self.curve, tags, slots, xs, answers)
    }

    pub fn primitives(&self, xs: &[f64], answers: &mut [f64]) -> Result<(), ManyRefused> {
        let Written { tags, slots, .. } = &self.written;
        lent::primitives(&self.knots, &self.curve, tags, slots, xs, answers)
    }

    pub fn primitive(&self, x: f64) -> Result<f64, Refusal> {
        let Written { tags, slots, .. } = &self.written;
        lent::primitive(&self.knots, &self.curve, tags, slots, x)
    }

    pub fn strip(&self, a: f64, b: f64) -> Result<f64, Refusal> {
        let Written { tags, slots, .. } = &self.written;
        lent::strip(&self.knots, &self.curve, tags, slots, a, b)
    }

    pub fn strips(
        &self,
        starts: &[f64],
        ends: &[f64],
        answers: &mut [f64],
    ) -> Result<(), ManyRefused> {
        let Written { tags, slots, .. } = &self.written;
        lent::strips(&self.knots, &self.curve, tags, slots, starts, ends, answers)
    }

    pub fn strip_run(&self, edges: &[f64], answers: &mut [f64]) -> Result<(), ManyRefused> {
        let Written { tags, slots, .. } = &self.written;
        lent::strip_run(&self.knots, &self.curve, tags, slots, edges, answers)
    }

    pub fn column(&self) -> &[f64] {
        &self.written.column[..self.knots.len()]
    }

    /// Whether no number of it is above [`MOST`] in size and no section divides by less than [`LEAST`], of which the library knows that
    /// every place of that size is answered by a finite number: of as many queries as knots or more it then looks at none by itself.
    pub fn is_ordinary(&self) -> bool {
        let Tail { value, total, from } = self.curve.tail;
        let is_of_size = |numbers: &[f64]| numbers.iter().all(|number| number.abs() <= MOST);
        let mut records = self
            .written
            .tags
            .iter()
            .zip(self.written.slots.chunks(SLOTS));
        let divides = |tag: u16, slots: &[f64]| {
            let (length, eta) = (slots[4] - slots[1], slots[18]);
            let quadratic = match tag & 0xf000 {
                0x2000 => slots[2],
                0x4000 => length,
                0x5000 => length.min(slots[12]),
                _ => LEAST,
            };
            let other = match tag & 0x0f80 {
                0x0300 => slots[14].min(1.0 - eta),
                0x0400 => slots[14].min(eta),
                0x0500 | 0x0600 => slots[14].min(eta).min(1.0 - eta),
                0x0680 => slots[14].min(eta).min(1.0 - eta).min(slots[21]),
                _ => LEAST,
            };
            quadratic.min(other)
        };
        is_of_size(&[value, total, from])
            && records.all(|(&tag, slots)| {
                tag != 0 && is_of_size(&slots[..FIELDS]) && divides(tag, slots) >= LEAST
            })
    }

    /// What the section that covers `x` answers there, finite or not; refused as a query is for all else.
    pub fn covering(&self, x: f64) -> Result<Answers, Refusal> {
        let (first, last) = (self.knots[0], self.knots[self.knots.len() - 1]);
        if x.is_nan() {
            return Err(Refusal::QueryNotANumber);
        }
        if !self.curve.extrapolates && !(first..=last).contains(&x) {
            return Err(Refusal::QueryOutside);
        }
        let section = |place: usize| Section {
            tag: self.written.tags[place],
            fields: std::array::from_fn::<f64, FIELDS, _>(|field| {
                self.written.slots[SLOTS * place + field]
            }),
        };
        asked::covering(&self.knots, self.curve.tail, section, x)
    }

    /// The total up to `x`, finite or not.
    pub fn total(&self, x: f64) -> Result<f64, Refusal> {
        Ok(self.covering(x)?.primitive.number)
    }

    /// What the strip from `a` to `b` is by two totals.
    pub fn due(&self, a: f64, b: f64) -> Result<f64, Refusal> {
        let (from, to) = (self.total(a)?, self.total(b)?);
        if a < b {
            finite((to - from) / (b - a))
        } else {
            Err(Refusal::StripEndsNotRising)
        }
    }
}

/// A curve of two points and more in any split, whole or held, and now and then with a seam. Averages below zero, which the safe split refuses, are
/// turned.
pub fn built(rng: &mut Rng) -> Built {
    let more = rng.pick(&[0.0, 3.0, 40.0]) as u64;
    let (knots, mut averages) = drawn::table(rng, 2, more);
    averages
        .iter_mut()
        .for_each(|average| *average = average.abs());
    let (method, hold) = (method(rng), rng.chance(2));
    let seam = (knots.len() > 2 && rng.chance(4)).then(|| Seam {
        count: 1 + rng.below(knots.len() as u64 - 2) as usize,
        node: rng.between(0.0, 9.0),
    });
    let mut without = Written::room(knots.len());
    let plain = lent::build(&knots, &averages, method, hold, seam, without.lent().0);
    let mut written = Written::room(knots.len());
    let (buffers, column) = written.lent();
    let curve = lent::build_with_column(&knots, &averages, method, hold, seam, buffers, column);
    let mut curve = curve.expect("builds");
    assert_eq!(
        format!("{:?}", Ok::<_, Refusal>(curve)),
        format!("{plain:?}")
    );
    assert_eq!(written.beside_the_column(), without.beside_the_column());
    assert_eq!(written.column[knots.len()].to_bits(), OLD.to_bits());
    curve.extrapolates = rng.chance(2);
    Built {
        knots,
        curve,
        written,
    }
}

pub fn told_bits(told: Result<f64, Refusal>) -> Result<Vec<u64>, Refusal> {
    told.map(|number| bits(&[number]))
}

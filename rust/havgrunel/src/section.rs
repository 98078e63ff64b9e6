//! One section by itself.

use crate::{FIELDS, Refusal, ffi};
#[cfg(doc)]
use crate::{Record, Split};

/// A section by itself: 16 bits that say which kinds it is made of, and [`FIELDS`] numbers. It belongs to no curve, so it knows neither the
/// knots of a period nor a total after one; the section of a curve is a [`Record`], which does.
#[derive(Clone, Copy, Debug, PartialEq)]
pub struct Section {
    /// Its kinds and splits.
    pub tag: u16,
    /// Its numbers; those that its kinds don't use are 0.
    pub fields: [f64; FIELDS],
}

/// What a section's formula gives at a place, with the mark that goes with it.
#[derive(Clone, Copy, Debug, PartialEq)]
pub struct Marked {
    /// The number by its bits, which may be infinite or a NaN.
    pub number: f64,
    /// Whether it is finite.
    pub finite: bool,
}

impl Marked {
    /// The number where it is finite; else it is refused by 21.
    pub fn told(self) -> Result<f64, Refusal> {
        if self.finite {
            Ok(self.number)
        } else {
            Err(Refusal::NotFinite)
        }
    }
}

/// What a section answers at a place.
#[derive(Clone, Copy, Debug, PartialEq)]
pub struct Answers {
    /// The price there.
    pub value: Marked,
    /// The total up to there.
    pub primitive: Marked,
    /// The price that the section ends on, wherever it is asked: the number that it stores, whatever that is.
    pub f_next: f64,
}

/// The bits of a tag that tell the quadratic part; the rest tell the other.
const QUADRATIC: u16 = 0xf000;

macro_rules! kinds {
    ($($(#[$doc:meta])* $name:ident($($argument:ident),*);)*) => {
        $($(#[$doc])*
        #[allow(clippy::too_many_arguments)]
        pub fn $name($($argument: f64),*) -> Section {
            let mut section = Section { tag: 0, fields: [0.0; FIELDS] };
            let number = ffi::$name($($argument,)* &mut section.tag, &mut section.fields);
            assert_eq!(number, 0, "a section has room for its numbers");
            section
        })*
    };
}

impl Section {
    kinds! {
        /// A constant section.
        everywhere_constant(value, prev_primitive, x_prev);
        /// A straight line from one node to the next.
        constant_grad(f_prev, prev_primitive, x_prev, x_next, f_next);
        /// Level, then a parabola.
        convex_monotone2(x_prev, x_next, g_prev, g_next, f_average, eta2, prev_primitive);
        /// A parabola, then level.
        convex_monotone3(x_prev, x_next, g_prev, g_next, f_average, eta3, prev_primitive);
        /// Two parabolas that meet.
        convex_monotone4(x_prev, x_next, g_prev, g_next, f_average, eta4, prev_primitive);
        /// The same, split where the two would meet at zero or below.
        convex_monotone4_min(x_prev, x_next, g_prev, g_next, f_average, eta4, prev_primitive);
        /// The same by the rule of [`Split::Safe`]: level at the average where the arms would be squeezed to next to nothing.
        convex_monotone4_min_safe(x_prev, x_next, g_prev, g_next, f_average, eta4, prev_primitive);
        /// The parabola through two nodes with the average.
        quadratic(x_prev, x_next, f_prev, f_next, f_average, prev_primitive);
        /// The same, split where both tests of the method's rule pass, which is so for some that stay above zero, too.
        quadratic_min(x_prev, x_next, f_prev, f_next, f_average, prev_primitive);
        /// The same by the rule of [`Split::Careful`]: split only where the rule above does and the section is then no longer
        /// than its period.
        quadratic_min_careful(x_prev, x_next, f_prev, f_next, f_average, prev_primitive);
        /// The same by the rule of [`Split::Safe`]: split wherever it would fall below zero between its nodes, and level at the
        /// average where the arms would be squeezed to next to nothing.
        quadratic_min_safe(x_prev, x_next, f_prev, f_next, f_average, prev_primitive);
    }

    /// So much of a quadratic section, and the rest of 1 of a convex monotone one. Refused by 15 where either is no such
    /// section by itself.
    pub fn combination(
        quadratic: &Section,
        other: &Section,
        quadraticity: f64,
    ) -> Result<Section, Refusal> {
        quadratic.answers(0.0)?;
        other.answers(0.0)?;
        if quadratic.tag & !QUADRATIC != 0 || other.tag & QUADRATIC != 0 {
            return Err(Refusal::RecordNotLegal);
        }
        let mut both = *other;
        both.tag |= quadratic.tag;
        both.fields[0] = quadraticity;
        both.fields[1..13].copy_from_slice(&quadratic.fields[1..13]);
        // The constant kinds don't combine, which the library knows.
        both.answers(0.0)?;
        Ok(both)
    }

    /// All that the section answers at `x`, wherever that is, its price and its total each with its mark; refused by 15 where the tag is
    /// none that there is.
    pub fn answers(&self, x: f64) -> Result<Answers, Refusal> {
        let (mut told, mut finite) = ([0.0; 3], [false; 2]);
        Refusal::told(ffi::section(
            self.tag,
            &self.fields,
            x,
            &mut told,
            &mut finite,
        ))?;
        let [value, primitive, f_next] = told;
        let marked = |number, finite| Marked { number, finite };
        Ok(Answers {
            value: marked(value, finite[0]),
            primitive: marked(primitive, finite[1]),
            f_next,
        })
    }

    /// The price at `x`. Refused in the order 15, 21, the last where the price is infinite or not a number.
    pub fn value(&self, x: f64) -> Result<f64, Refusal> {
        self.answers(x)?.value.told()
    }

    /// The total up to `x`, refused in the same way for its own number.
    pub fn primitive(&self, x: f64) -> Result<f64, Refusal> {
        self.answers(x)?.primitive.told()
    }

    /// The price that the section ends on, as it is stored; refused by 15 alone.
    pub fn f_next(&self) -> Result<f64, Refusal> {
        Ok(self.answers(0.0)?.f_next)
    }
}

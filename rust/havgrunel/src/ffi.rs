//! The functions of the archive. All unsafe code of this crate is here.
//!
//! A slice crosses as a pointer and a count, as c/havgrunel.h says. Each function is proved to read and write within the counts
//! it is given, for any numbers whatever, and to come back. What is left to show at a call is that each pointer
//! leads to as many entries as are told, that no one else uses what is written while the call lasts, and that the declaration
//! fits the function. The first two follow from the slices' own types; the last is what the tests against the archive run.

use crate::ConvexMonotone;
use crate::lent::{Buffers, Curve, Previous, Seam, Sheet};

// A count is 64 bits on the other side.
#[cfg(not(target_pointer_width = "64"))]
compile_error!("the library is made for 64-bit machines");

mod archive;

pub use archive::Many;
pub use archive::havgrunel_default_monotonicity as default_monotonicity;
pub use archive::havgrunel_default_positivity as default_positivity;
pub use archive::havgrunel_default_quadraticity as default_quadraticity;
pub use archive::havgrunel_derivative as derivative;
pub use archive::havgrunel_gas_monotonicity as gas_monotonicity;
pub use archive::havgrunel_gas_positivity as gas_positivity;
pub use archive::havgrunel_gas_quadraticity as gas_quadraticity;
pub use archive::havgrunel_inner_node as inner_node;
pub use archive::havgrunel_sqrt as sqrt;

macro_rules! builds {
    ($($name:ident: $exported:ident($($column:ident)?);)*) => {
        $(#[allow(clippy::too_many_arguments)]
        pub fn $name(
            knots: &[f64],
            averages: &[f64],
            method: ConvexMonotone,
            hold: bool,
            seam: Option<Seam>,
            buffers: Buffers<'_>,
            sections: &mut [usize],
            tail: &mut [f64],
            $($column: &mut [f64],)?
        ) -> u8 {
            let (count, node) = seam.map_or((0, 0.0), |seam| (seam.count, seam.node));
            // SAFETY: each pointer and count is one slice's, borrowed until the call is over; what is written is borrowed by no one else.
            unsafe {
                archive::$exported(
                    knots.as_ptr(),
                    knots.len(),
                    averages.as_ptr(),
                    averages.len(),
                    method.quadraticity,
                    method.monotonicity,
                    method.force_positive,
                    method.split.number(),
                    hold,
                    seam.is_some(),
                    count,
                    node,
                    buffers.nodes.as_mut_ptr(),
                    buffers.nodes.len(),
                    buffers.tags.as_mut_ptr(),
                    buffers.tags.len(),
                    buffers.slots.as_mut_ptr(),
                    buffers.slots.len(),
                    sections.as_mut_ptr(),
                    sections.len(),
                    tail.as_mut_ptr(),
                    tail.len(),
                    $($column.as_mut_ptr(), $column.len(),)?
                )
            }
        })*
    };
}

builds! {
    build: havgrunel_build();
    build_with_column: havgrunel_build_with_column(column);
}

macro_rules! growths {
    ($($name:ident: $exported:ident($($column:ident)?);)*) => {
        $(#[allow(clippy::too_many_arguments)]
        pub fn $name(
            knots: &[f64],
            averages: &[f64],
            method: ConvexMonotone,
            localisation: usize,
            final_size: usize,
            previous: Option<Previous<'_>>,
            buffers: Buffers<'_>,
            sections: &mut [usize],
            tail: &mut [f64],
            $($column: &mut [f64],)?
        ) -> u8 {
            let grown = previous.is_some();
            let previous = previous.unwrap_or(Previous {
                sections: 0,
                held: false,
                tags: &[],
                slots: &[],
            });
            // SAFETY: each pointer and count is one slice's, borrowed until the call is over; what is written is borrowed by no one else,
            // the previous curve included.
            unsafe {
                archive::$exported(
                    knots.as_ptr(),
                    knots.len(),
                    averages.as_ptr(),
                    averages.len(),
                    method.quadraticity,
                    method.monotonicity,
                    method.force_positive,
                    method.split.number(),
                    localisation,
                    final_size,
                    grown,
                    previous.sections,
                    previous.held,
                    previous.tags.as_ptr(),
                    previous.tags.len(),
                    previous.slots.as_ptr(),
                    previous.slots.len(),
                    buffers.nodes.as_mut_ptr(),
                    buffers.nodes.len(),
                    buffers.tags.as_mut_ptr(),
                    buffers.tags.len(),
                    buffers.slots.as_mut_ptr(),
                    buffers.slots.len(),
                    sections.as_mut_ptr(),
                    sections.len(),
                    tail.as_mut_ptr(),
                    tail.len(),
                    $($column.as_mut_ptr(), $column.len(),)?
                )
            }
        })*
    };
}

growths! {
    grow: havgrunel_grow();
    grow_with_column: havgrunel_grow_with_column(column);
}

pub fn month_knots(
    first: i64,
    last: i64,
    months: u8,
    knots: &mut [f64],
    count: &mut [usize],
) -> u8 {
    // SAFETY: each pointer and count is one slice's, borrowed by no one else until the call is over.
    unsafe {
        archive::havgrunel_month_knots(
            first,
            last,
            months,
            knots.as_mut_ptr(),
            knots.len(),
            count.as_mut_ptr(),
            count.len(),
        )
    }
}

#[allow(clippy::too_many_arguments)]
pub fn build_months(
    first: i64,
    last: i64,
    months: u8,
    averages: &[f64],
    method: ConvexMonotone,
    hold: bool,
    seam: Option<Seam>,
    knots: &mut [f64],
    buffers: Buffers<'_>,
    sections: &mut [usize],
    tail: &mut [f64],
) -> u8 {
    let (count, node) = seam.map_or((0, 0.0), |seam| (seam.count, seam.node));
    // SAFETY: each pointer and count is one slice's, borrowed until the call is over; what is written is borrowed by no one else.
    unsafe {
        archive::havgrunel_build_months(
            first,
            last,
            months,
            averages.as_ptr(),
            averages.len(),
            method.quadraticity,
            method.monotonicity,
            method.force_positive,
            method.split.number(),
            hold,
            seam.is_some(),
            count,
            node,
            knots.as_mut_ptr(),
            knots.len(),
            buffers.nodes.as_mut_ptr(),
            buffers.nodes.len(),
            buffers.tags.as_mut_ptr(),
            buffers.tags.len(),
            buffers.slots.as_mut_ptr(),
            buffers.slots.len(),
            sections.as_mut_ptr(),
            sections.len(),
            tail.as_mut_ptr(),
            tail.len(),
        )
    }
}

pub fn sheet(
    knots: &[f64],
    averages: &[f64],
    method: ConvexMonotone,
    sheet: Sheet,
    buffers: Buffers<'_>,
    answer: &mut [f64],
) -> u8 {
    // SAFETY: each pointer and count is one slice's, borrowed until the call is over; what is written is borrowed by no one else.
    unsafe {
        archive::havgrunel_sheet(
            knots.as_ptr(),
            knots.len(),
            averages.as_ptr(),
            averages.len(),
            method.quadraticity,
            method.monotonicity,
            method.force_positive,
            method.split.number(),
            sheet.left.is_some(),
            sheet.left.unwrap_or(0.0),
            sheet.right.is_some(),
            sheet.right.unwrap_or(0.0),
            sheet.start,
            sheet.place,
            buffers.nodes.as_mut_ptr(),
            buffers.nodes.len(),
            buffers.tags.as_mut_ptr(),
            buffers.tags.len(),
            buffers.slots.as_mut_ptr(),
            buffers.slots.len(),
            answer.as_mut_ptr(),
            answer.len(),
        )
    }
}

pub fn build_in_sheets(
    knots: &[f64],
    averages: &[f64],
    method: ConvexMonotone,
    cuts: &[usize],
    buffers: Buffers<'_>,
    sections: &mut [usize],
    tail: &mut [f64],
) -> u8 {
    // SAFETY: each pointer and count is one slice's, borrowed until the call is over; what is written is borrowed by no one else.
    unsafe {
        archive::havgrunel_build_in_sheets(
            knots.as_ptr(),
            knots.len(),
            averages.as_ptr(),
            averages.len(),
            method.quadraticity,
            method.monotonicity,
            method.force_positive,
            method.split.number(),
            cuts.as_ptr(),
            cuts.len(),
            buffers.nodes.as_mut_ptr(),
            buffers.nodes.len(),
            buffers.tags.as_mut_ptr(),
            buffers.tags.len(),
            buffers.slots.as_mut_ptr(),
            buffers.slots.len(),
            sections.as_mut_ptr(),
            sections.len(),
            tail.as_mut_ptr(),
            tail.len(),
        )
    }
}

macro_rules! queries {
    ($($name:ident: $exported:ident($($at:ident),*);)*) => {
        $(pub fn $name(
            knots: &[f64],
            tags: &[u16],
            slots: &[f64],
            curve: &Curve,
            $($at: f64,)*
            answer: &mut [f64],
        ) -> u8 {
            // SAFETY: each pointer and count is one slice's, borrowed until the call is over; the answer's is borrowed by no one else.
            unsafe {
                archive::$exported(
                    knots.as_ptr(),
                    knots.len(),
                    tags.as_ptr(),
                    tags.len(),
                    slots.as_ptr(),
                    slots.len(),
                    curve.tail.value,
                    curve.tail.total,
                    curve.tail.from,
                    curve.extrapolates,
                    $($at,)*
                    answer.as_mut_ptr(),
                    answer.len(),
                )
            }
        })*
    };
}

queries! {
    value: havgrunel_value(x);
    primitive: havgrunel_primitive(x);
    strip: havgrunel_strip(a, b);
}

macro_rules! many_queries {
    ($($name:ident: $exported:ident($($at:ident),*);)*) => {
        $(pub fn $name(
            knots: &[f64],
            tags: &[u16],
            slots: &[f64],
            curve: &Curve,
            $($at: &[f64],)*
            answers: &mut [f64],
        ) -> Many {
            // SAFETY: each pointer and count is one slice's, borrowed until the call is over; the answers' is borrowed by no one else.
            unsafe {
                archive::$exported(
                    knots.as_ptr(),
                    knots.len(),
                    tags.as_ptr(),
                    tags.len(),
                    slots.as_ptr(),
                    slots.len(),
                    curve.tail.value,
                    curve.tail.total,
                    curve.tail.from,
                    curve.extrapolates,
                    $($at.as_ptr(), $at.len(),)*
                    answers.as_mut_ptr(),
                    answers.len(),
                )
            }
        })*
    };
}

many_queries! {
    values: havgrunel_values(xs);
    primitives: havgrunel_primitives(xs);
    strips: havgrunel_strips(starts, ends);
    strip_run: havgrunel_strip_run(edges);
}

pub fn strip_between(knots: &[f64], column: &[f64], i: usize, j: usize, answer: &mut [f64]) -> u8 {
    // SAFETY: each pointer and count is one slice's, borrowed until the call is over; the answer's is borrowed by no one else.
    unsafe {
        archive::havgrunel_strip_between(
            knots.as_ptr(),
            knots.len(),
            column.as_ptr(),
            column.len(),
            i,
            j,
            answer.as_mut_ptr(),
            answer.len(),
        )
    }
}

pub fn column_entry(column: &[f64], i: usize, answer: &mut [f64]) -> u8 {
    // SAFETY: each pointer and count is one slice's, borrowed until the call is over; the answer's is borrowed by no one else.
    unsafe {
        archive::havgrunel_column_entry(
            column.as_ptr(),
            column.len(),
            i,
            answer.as_mut_ptr(),
            answer.len(),
        )
    }
}

pub fn record(points: usize, slots: &[f64], number: usize, into: &mut [f64]) -> u8 {
    // SAFETY: each pointer and count is one slice's, borrowed until the call is over; `into` is borrowed by no one else.
    unsafe {
        archive::havgrunel_record(
            points,
            slots.as_ptr(),
            slots.len(),
            number,
            into.as_mut_ptr(),
            into.len(),
        )
    }
}

pub fn section(tag: u16, slots: &[f64], x: f64, answer: &mut [f64], finite: &mut [bool]) -> u8 {
    // SAFETY: each pointer and count is one slice's, borrowed until the call is over; the answer's and the marks' are borrowed by no one
    // else.
    unsafe {
        archive::havgrunel_section(
            tag,
            slots.as_ptr(),
            slots.len(),
            x,
            answer.as_mut_ptr(),
            answer.len(),
            finite.as_mut_ptr(),
            finite.len(),
        )
    }
}

macro_rules! kinds {
    ($($name:ident: $exported:ident($($argument:ident),*);)*) => {
        mod kinds {
            // SAFETY: the declarations are those of c/havgrunel.h.
            unsafe extern "C" {
                $(pub fn $exported(
                    $($argument: f64,)*
                    tag: *mut u16,
                    tag_count: usize,
                    slots: *mut f64,
                    slots_count: usize,
                ) -> u8;)*
            }
        }

        $(#[allow(clippy::too_many_arguments)]
        pub fn $name($($argument: f64,)* tag: &mut u16, slots: &mut [f64]) -> u8 {
            // SAFETY: one tag, and the slots with their own count, borrowed by no one else until the call is over.
            unsafe { kinds::$exported($($argument,)* tag, 1, slots.as_mut_ptr(), slots.len()) }
        })*
    };
}

kinds! {
    everywhere_constant: havgrunel_everywhere_constant(value, prev_primitive, x_prev);
    constant_grad: havgrunel_constant_grad(f_prev, prev_primitive, x_prev, x_next, f_next);
    convex_monotone2: havgrunel_convex_monotone2(x_prev, x_next, g_prev, g_next, f_average, eta2, prev_primitive);
    convex_monotone3: havgrunel_convex_monotone3(x_prev, x_next, g_prev, g_next, f_average, eta3, prev_primitive);
    convex_monotone4: havgrunel_convex_monotone4(x_prev, x_next, g_prev, g_next, f_average, eta4, prev_primitive);
    convex_monotone4_min: havgrunel_convex_monotone4_min(x_prev, x_next, g_prev, g_next, f_average, eta4, prev_primitive);
    convex_monotone4_min_safe: havgrunel_convex_monotone4_min_safe(x_prev, x_next, g_prev, g_next, f_average, eta4, prev_primitive);
    quadratic: havgrunel_quadratic(x_prev, x_next, f_prev, f_next, f_average, prev_primitive);
    quadratic_min: havgrunel_quadratic_min(x_prev, x_next, f_prev, f_next, f_average, prev_primitive);
    quadratic_min_careful: havgrunel_quadratic_min_careful(x_prev, x_next, f_prev, f_next, f_average, prev_primitive);
    quadratic_min_safe: havgrunel_quadratic_min_safe(x_prev, x_next, f_prev, f_next, f_average, prev_primitive);
}

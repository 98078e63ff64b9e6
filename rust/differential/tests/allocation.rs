//! Calls over lent buffers take no memory, so there is none to run out of.

use std::alloc::{GlobalAlloc, Layout, System};
use std::cell::Cell;

use havgrunel::lent::{self, Buffers, Previous};
use havgrunel::{ConvexMonotone, Period, Record, SLOTS, sqrt};

thread_local! {
    static TAKEN: Cell<usize> = const { Cell::new(0) };
}

/// The system's allocator, counting what this thread takes.
struct Counting;

// SAFETY: every call is handed to the system's allocator as it came.
unsafe impl GlobalAlloc for Counting {
    unsafe fn alloc(&self, layout: Layout) -> *mut u8 {
        TAKEN.set(TAKEN.get() + 1);
        unsafe { System.alloc(layout) }
    }

    unsafe fn dealloc(&self, pointer: *mut u8, layout: Layout) {
        unsafe { System.dealloc(pointer, layout) }
    }
}

#[global_allocator]
static COUNTING: Counting = Counting;

fn lend<'a>(nodes: &'a mut [f64], tags: &'a mut [u16], slots: &'a mut [f64]) -> Buffers<'a> {
    Buffers { nodes, tags, slots }
}

#[test]
fn lent_calls_take_no_memory() {
    let (x, y) = ([0.0, 1.0, 2.0, 4.0], [0.0, 5.0, 0.5, 3.0]);
    let method = ConvexMonotone::default();
    let (mut nodes, mut tags, mut slots) = ([0.0; 4], [0; 3], [0.0; 3 * SLOTS]);
    let (mut next_nodes, mut next_tags, mut next_slots) = (nodes, tags, slots);
    let (mut column, mut knots, mut prices) = ([0.0; 4], [0.0; 4], [0.0; 2]);
    let places = [0.5, 1.5];
    let before = TAKEN.get();

    let buffers = lend(&mut nodes, &mut tags, &mut slots);
    let plain = lent::build(&x[..3], &y[..3], method, true, None, buffers);
    let buffers = lend(&mut nodes, &mut tags, &mut slots);
    let held = lent::build_with_column(&x[..3], &y[..3], method, true, None, buffers, &mut column);
    let previous = Previous {
        sections: 2,
        held: true,
        tags: &tags,
        slots: &slots,
    };
    let buffers = lend(&mut next_nodes, &mut next_tags, &mut next_slots);
    let plain_grown = lent::grow(&x, &y, method, 2, Some(previous), 4, buffers);
    let buffers = lend(&mut next_nodes, &mut next_tags, &mut next_slots);
    let grown = lent::grow_with_column(&x, &y, method, 2, Some(previous), 4, buffers, &mut column);
    let months = lent::month_knots(0, 2, Period::Month, &mut knots);
    let buffers = lend(&mut nodes, &mut tags, &mut slots);
    let delivered = lent::build_months(
        0,
        2,
        Period::Month,
        &y,
        method,
        false,
        None,
        &mut knots,
        buffers,
    );
    let none = lend(&mut [], &mut [], &mut []);
    let refused = lent::build(&x, &y[..3], method, false, None, none);
    let asked = grown.and_then(|curve| {
        let value = lent::value(&x, &curve, &next_tags, &next_slots, 1.5)?;
        let total = lent::primitive(&x, &curve, &next_tags, &next_slots, 1.5)?;
        let strip = lent::strip(&x, &curve, &next_tags, &next_slots, 0.5, 3.0)?;
        let between = lent::strip_between(&x, &column, 0, 3)?;
        lent::strips(
            &x,
            &curve,
            &next_tags,
            &next_slots,
            &[0.5, 1.0],
            &[1.5, 4.0],
            &mut prices,
        )?;
        lent::strip_run(
            &x,
            &curve,
            &next_tags,
            &next_slots,
            &[0.0, 1.5, 4.0],
            &mut prices,
        )?;
        lent::values(&x, &curve, &next_tags, &next_slots, &places, &mut prices)?;
        lent::primitives(&x, &curve, &next_tags, &next_slots, &places, &mut prices)?;
        let entry = lent::column_entry(&column, 3)?;
        let slots = lent::record(4, &next_slots, 1)?;
        let record = Record {
            tag: next_tags[1],
            slots,
        };
        Ok(value + total + strip + between + entry + record.value(1.5)? + sqrt(2.0))
    });

    assert_eq!(TAKEN.get(), before);
    assert!(plain.is_ok() && held.is_ok() && plain_grown.is_ok());
    assert!(months == Ok(4) && delivered.is_ok());
    assert!(asked.is_ok() && refused.is_err());
    // The count does count.
    std::hint::black_box(Vec::<u8>::with_capacity(9));
    assert!(TAKEN.get() > before);
}

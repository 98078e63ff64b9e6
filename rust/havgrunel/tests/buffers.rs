//! What a call leaves in lent buffers: its answers from the start, and every other entry as it was.

use havgrunel::lent::{self, Buffers, Curve, Seam};
use havgrunel::{ConvexMonotone, SLOTS};

const OLD: f64 = -123.25;
const OLD_TAG: u16 = 0xabcd;

#[derive(Clone, PartialEq)]
struct Held {
    nodes: [f64; 6],
    tags: [u16; 6],
    slots: [f64; 4 * SLOTS],
}

impl Held {
    fn new() -> Held {
        Held {
            nodes: [OLD; 6],
            tags: [OLD_TAG; 6],
            slots: [OLD; 4 * SLOTS],
        }
    }

    fn lent(&mut self) -> Buffers<'_> {
        Buffers {
            nodes: &mut self.nodes,
            tags: &mut self.tags,
            slots: &mut self.slots,
        }
    }
}

#[test]
fn entries_beyond_a_curve_stay() {
    let (x, y) = ([0.0, 1.0, 2.5, 3.0], [0.0, 1.0, 3.0, 2.0]);
    let method = ConvexMonotone::default();
    let mut held = Held::new();
    let curve = lent::build(&x, &y, method, false, None, held.lent()).expect("builds");
    assert_eq!(curve.sections, 3);
    assert!(held.nodes[4..].iter().all(|&node| node == OLD));
    assert!(held.tags[3..].iter().all(|&tag| tag == OLD_TAG));
    assert!(held.slots[3 * SLOTS..].iter().all(|&slot| slot == OLD));

    // The curve that owns its buffers is the same one.
    let owned = method.interpolate(&x, &y).expect("builds");
    assert_eq!(owned.nodes(), &held.nodes[..4]);
    for (number, record) in owned.records().enumerate() {
        assert_eq!(record.tag, held.tags[number]);
        assert_eq!(record.slots, held.slots[SLOTS * number..][..SLOTS]);
        assert_eq!(lent::record(4, &held.slots, number), Ok(record.slots));
    }
    assert_eq!(owned.tail(), curve.tail);
}

#[test]
fn a_refusal_writes_nothing() {
    let method = ConvexMonotone::default();
    let (x, y) = ([0.0, 1.0, 2.0], [0.0, 1.0, 3.0]);
    let far = Some(Seam {
        count: 2,
        node: 1.0,
    });
    let mut held = Held::new();
    let refused: [Result<Curve, _>; 5] = [
        lent::build(&x, &y[..2], method, false, None, held.lent()),
        lent::build(&x[..1], &y[..1], method, false, None, held.lent()),
        lent::build(&[1.0, 0.0], &y[..2], method, false, None, held.lent()),
        lent::build(&x, &y, method, false, far, held.lent()),
        lent::grow(&x, &y, method, 1, None, 3, held.lent()),
    ];
    assert!(refused.iter().all(Result::is_err));
    assert!(held == Held::new());
}

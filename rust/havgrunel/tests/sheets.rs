//! A table that is cut into sheets: the whole's curve, bit for bit, any NaN matching any NaN.

mod drawn;

use drawn::table;
use havgrunel::lent::{self, Buffers, Sheet, SheetEnd};
use havgrunel::{
    ConvexMonotone, ConvexMonotoneInterpolation, MOST_POINTS, Refusal, SLOTS, inner_node,
};
use oracle::answers::rng::Rng;
use oracle::words::bits;

const OLD: f64 = -123.25;
const OLD_TAG: u16 = 0xabcd;

/// The buffers of a whole table, with one entry more than it takes.
#[derive(Clone, Debug)]
struct Whole {
    nodes: Vec<f64>,
    tags: Vec<u16>,
    slots: Vec<f64>,
}

impl Whole {
    fn new(points: usize) -> Whole {
        Whole {
            nodes: vec![OLD; points + 1],
            tags: vec![OLD_TAG; points],
            slots: vec![OLD; SLOTS * (points - 1) + 1],
        }
    }

    fn lent(&mut self) -> Buffers<'_> {
        Buffers {
            nodes: &mut self.nodes,
            tags: &mut self.tags,
            slots: &mut self.slots,
        }
    }

    /// All that is held, by bits.
    fn held(&self) -> (Vec<u64>, Vec<u16>, Vec<u64>) {
        let of = |numbers: &[f64]| numbers.iter().copied().map(bits).collect();
        (of(&self.nodes), self.tags.clone(), of(&self.slots))
    }
}

/// A part of a table, from one knot to another, with what it is handed.
struct Piece {
    from: usize,
    to: usize,
    sheet: Sheet,
}

fn cuts(rng: &mut Rng, points: usize) -> Vec<usize> {
    let one_in = 1 + rng.below(6);
    (1..points - 1).filter(|_| rng.chance(one_in)).collect()
}

/// The sheets of a table, each handed the nodes at its cuts and the total before it, worked out from the table alone.
fn pieces(x: &[f64], y: &[f64], cuts: &[usize]) -> Vec<Piece> {
    let last = x.len() - 1;
    let node = |i: usize| {
        (0 < i && i < last).then(|| inner_node(x[i - 1], x[i], x[i + 1], y[i], y[i + 1]))
    };
    let total = |before: usize| (1..=before).fold(0.0, |total, i| total + y[i] * (x[i] - x[i - 1]));
    let ends = cuts.iter().copied().chain([last]);
    let mut from = 0;
    ends.map(|to| {
        let sheet = Sheet {
            left: node(from),
            right: node(to),
            start: total(from),
            place: from,
        };
        let piece = Piece { from, to, sheet };
        from = to;
        piece
    })
    .collect()
}

fn draw(
    method: ConvexMonotone,
    x: &[f64],
    y: &[f64],
    piece: &Piece,
    whole: &mut Whole,
) -> Result<SheetEnd, Refusal> {
    let part = piece.from..piece.to + 1;
    method.sheet(&x[part.clone()], &y[part], piece.sheet, whole.lent())
}

fn same_curve(one: &ConvexMonotoneInterpolation, two: &ConvexMonotoneInterpolation) -> bool {
    let of = |curve: &ConvexMonotoneInterpolation| {
        let nodes: Vec<u64> = curve.nodes().iter().copied().map(bits).collect();
        let records: Vec<_> = curve
            .records()
            .map(|r| (r.tag, r.slots.map(bits)))
            .collect();
        let tail = curve.tail();
        (
            nodes,
            records,
            [tail.value, tail.total, tail.from].map(bits),
        )
    };
    one.sections() == two.sections() && of(one) == of(two)
}

#[test]
fn sheets_in_any_order_are_the_whole() {
    let mut rng = Rng::new(0x5ee7);
    let (mut drawn, mut cut) = (0, 0);
    for _ in 0..600 {
        let (x, y) = table(&mut rng, 3, 27);
        let method = ConvexMonotone::new(rng.unit(), rng.unit(), rng.chance(2));
        let cuts = cuts(&mut rng, x.len());
        let mut whole = Whole::new(x.len());
        let curve = lent::build(&x, &y, method, false, None, whole.lent()).expect("builds");

        let built = method.interpolate(&x, &y).expect("builds");
        let pieced = method.interpolate_in_sheets(&x, &y, &cuts).expect("builds");
        assert!(same_curve(&built, &pieced));
        if cuts.is_empty() {
            continue;
        }
        cut += 1;

        // From left to right, each answers where the next one starts.
        let pieces = pieces(&x, &y, &cuts);
        let mut held = Whole::new(x.len());
        let mut total = 0.0;
        let mut tail = None;
        for piece in &pieces {
            assert_eq!(bits(piece.sheet.start), bits(total));
            let end = draw(method, &x, &y, piece, &mut held).expect("is accepted");
            assert_eq!(end.tail.is_some(), piece.to == x.len() - 1);
            (total, tail) = (end.total, end.tail);
        }
        assert_eq!(held.held(), whole.held());
        let of = |tail: lent::Tail| [tail.value, tail.total, tail.from].map(bits);
        assert_eq!(tail.map(of), Some(of(curve.tail)));

        // In any order, and some of them twice.
        let mut order: Vec<usize> = (0..pieces.len()).collect();
        order.extend((0..pieces.len()).filter(|_| rng.chance(4)));
        for i in (1..order.len()).rev() {
            order.swap(i, rng.below(i as u64 + 1) as usize);
        }
        let mut held = Whole::new(x.len());
        for number in order {
            draw(method, &x, &y, &pieces[number], &mut held).expect("is accepted");
            drawn += 1;
        }
        assert_eq!(held.held(), whole.held());
    }
    assert!(cut > 400 && drawn > 2000, "{cut} tables, {drawn} sheets");
}

/// The order that is worked in the requirements: three points, cut at the middle one.
#[test]
fn the_worked_table_in_two_sheets() {
    let (x, y) = ([0.0, 1.0, 2.0], [0.0, 1.0, 3.0]);
    let method = ConvexMonotone::new(0.0, 1.0, false);
    let mut whole = Whole::new(3);
    let curve = lent::build(&x, &y, method, false, None, whole.lent()).expect("builds");
    let mut held = Whole::new(3);
    let left = Sheet {
        left: None,
        right: Some(inner_node(0.0, 1.0, 2.0, 1.0, 3.0)),
        start: 0.0,
        place: 0,
    };
    assert_eq!(left.right, Some(2.0));
    let end = method.sheet(&x[..2], &y[..2], left, held.lent());
    let (total, tail) = (1.0, None);
    assert_eq!(end, Ok(SheetEnd { total, tail }));
    let right = Sheet {
        left: Some(2.0),
        right: None,
        start: total,
        place: 1,
    };
    let end = method.sheet(&x[1..], &y[1..], right, held.lent());
    let (total, tail) = (4.0, Some(curve.tail));
    assert_eq!(end, Ok(SheetEnd { total, tail }));
    assert_eq!(held.held(), whole.held());
    // What was put together answers as a curve does.
    let answer = lent::value(&x, &curve, &held.tags[..2], &held.slots[..2 * SLOTS], 1.5);
    assert_eq!(answer, Ok(3.125));
}

#[test]
fn a_sheet_is_refused_in_order_and_writes_nothing() {
    let (x, y) = ([0.0, 1.0, 2.0], [0.0, 1.0, 3.0]);
    let mut held = Whole::new(3);
    let given = Sheet {
        left: Some(f64::NAN),
        right: Some(f64::INFINITY),
        start: f64::NAN,
        place: 0,
    };
    let free = Sheet {
        left: None,
        right: None,
        ..given
    };
    let mut refusal = |m: f64, x: &[f64], y: &[f64], sheet| {
        let drawn = ConvexMonotone::new(0.5, m, true).sheet(x, y, sheet, held.lent());
        drawn.map_or_else(Refusal::number, |_| 0)
    };
    assert_eq!(refusal(2.0, &x, &y[..2], free), 16);
    assert_eq!(refusal(2.0, &x, &y[..2], given), 1);
    assert_eq!(refusal(2.0, &x, &y, given), 2);
    assert_eq!(refusal(0.5, &x[..1], &y[..1], given), 4);
    assert_eq!(refusal(0.5, &[0.0, f64::NAN], &y[..2], given), 5);
    assert_eq!(refusal(0.5, &[0.0, 0.0], &[f64::NAN, 0.0], given), 6);
    assert_eq!(refusal(0.5, &[0.0, 0.0], &y[..2], given), 7);
    // From place 2 on there is room for one period less.
    for place in [2, 3, 4, 5, usize::MAX / SLOTS, usize::MAX / 8, usize::MAX] {
        assert_eq!(refusal(0.5, &x, &y, Sheet { place, ..given }), 11);
    }
    let days: Vec<f64> = (0..=MOST_POINTS as u32).map(f64::from).collect();
    assert_eq!(refusal(0.5, &days, &days, given), 10);
    assert_eq!(held.held(), Whole::new(3).held());
    // A given node may be any number.
    let one = Sheet {
        right: None,
        ..given
    };
    let drawn = ConvexMonotone::default().sheet(&x, &y, one, held.lent());
    assert!(drawn.expect("is accepted").tail.is_some());
    assert!(held.nodes[0].is_nan() && held.nodes[3] == OLD);
}

#[test]
fn cuts_are_refused_before_all_else() {
    let (x, y) = ([0.0, 1.0, 2.0, 3.0], [0.0, 1.0, 3.0, 2.0]);
    let method = ConvexMonotone::default();
    let refusal = |x: &[f64], y: &[f64], cuts: &[usize]| {
        let built = method.interpolate_in_sheets(x, y, cuts);
        built.map_or_else(Refusal::number, |_| 0)
    };
    let bad: [&[usize]; 6] = [&[0], &[3], &[4], &[2, 1], &[1, 1], &[1, 2, usize::MAX]];
    for cuts in bad {
        assert_eq!(refusal(&x, &y, cuts), 28);
        assert_eq!(refusal(&x, &y[..1], cuts), 28);
    }
    assert_eq!(refusal(&[], &[], &[0]), 28);
    assert_eq!(refusal(&x, &y[..1], &[1]), 1);
    assert_eq!(refusal(&[], &[], &[]), 4);
    assert_eq!(refusal(&x, &y, &[1, 2]), 0);

    let mut held = Whole::new(4);
    let refused = lent::build_in_sheets(&x, &y, method, &[3], held.lent());
    assert_eq!(refused, Err(Refusal::CutsNotInner));
    let refused = lent::build_in_sheets(&[1.0; 4], &y, method, &[1], held.lent());
    assert_eq!(refused, Err(Refusal::KnotsNotRising));
    let short = Buffers {
        nodes: &mut held.nodes[..3],
        tags: &mut held.tags,
        slots: &mut held.slots,
    };
    let refused = lent::build_in_sheets(&x, &y, method, &[1], short);
    assert_eq!(refused, Err(Refusal::BufferTooShort));
    assert_eq!(held.held(), Whole::new(4).held());
}

//! Cases of every temper, each made from the seed and its own number alone.

mod careful;
mod growing;
mod months;
mod reading;
mod safe;
mod section;
mod sheets;
mod tables;

use havgrunel::{FIELDS, MOST_POINTS, SLOTS, Split};
use oracle::answers::rng::Rng;
use oracle::{Settings, legal_tags};

use crate::case::{Case, Queries, Room, Strips};

const LEAST: f64 = f64::from_bits(1);

/// By how much room can differ: the slots of a record, and those behind a section's own numbers in it.
const RECORD: i32 = SLOTS as i32;
const BEHIND: i32 = (SLOTS - FIELDS) as i32;

/// Numbers at the ends of the range and at its turns.
const ENDS: [f64; 22] = [
    0.0,
    -0.0,
    1.0,
    -1.0,
    1.0e-14,
    -1.0e-14,
    1.0e300,
    -1.0e300,
    1.7e308,
    f64::MAX,
    f64::MIN,
    f64::MIN_POSITIVE,
    -f64::MIN_POSITIVE,
    LEAST,
    -LEAST,
    f64::from_bits(3),
    f64::from_bits((1 << 52) - 1),
    f64::from_bits(0x0005_5555_5555_5555),
    f64::EPSILON,
    f64::INFINITY,
    f64::NEG_INFINITY,
    f64::NAN,
];

/// How many of [`ENDS`] are finite.
const FINITE: usize = ENDS.len() - 3;

const SHARES: [f64; 12] = [
    0.0,
    -0.0,
    LEAST,
    1.0e-300,
    f64::EPSILON,
    0.25,
    0.3,
    0.5,
    0.7,
    1.0 - f64::EPSILON / 2.0,
    1.0,
    1.0,
];

const NOT_SHARES: [f64; 9] = [
    -LEAST,
    -1.0,
    -1.0e300,
    1.0 + f64::EPSILON,
    2.0,
    f64::INFINITY,
    f64::NEG_INFINITY,
    f64::NAN,
    -f64::NAN,
];

/// The generator of one case.
pub fn rng(seed: u64, number: u64) -> Rng {
    let mixed = Rng::new(seed).word() ^ number;
    Rng::new(Rng::new(mixed).word())
}

/// The sorts of case come round by their numbers. Their count is odd, so that each of two threads meets all.
const ROUND: u64 = 25;

/// Of so many rounds one is built in the careful mode and one in the safe mode.
const MODES: u64 = 4;

pub fn case(seed: u64, number: u64) -> Case {
    let rng = &mut rng(seed, number);
    let sort = number % ROUND;
    let case = match sort {
        0..=9 => tables::build(rng),
        10..=12 => growing::growth(rng),
        13 | 14 => reading::reading(rng),
        15 => section::section(rng),
        16 => section::record(rng),
        17 => tables::faulty(rng),
        18 | 19 => sheets::sheets(rng),
        20 => months::months(rng),
        21 => careful::strip(rng),
        22 => careful::parabola(rng),
        23 => safe::strip(rng),
        _ => safe::section(rng),
    };
    // The last four sorts are about one mode alone.
    match (sort, number / ROUND % MODES) {
        (23.., _) => careful::set(rng, case, Split::Safe),
        (21.., _) | (_, 0) => careful::set(rng, case, Split::Careful),
        (_, 2) => {
            let case = safe::raised(rng, case);
            careful::set(rng, case, Split::Safe)
        }
        _ => case,
    }
}

fn index(rng: &mut Rng, end: usize) -> usize {
    rng.below(end as u64) as usize
}

/// A number with any bits whatever.
fn pattern(rng: &mut Rng) -> f64 {
    f64::from_bits(rng.word())
}

/// A finite number of any size.
fn finite(rng: &mut Rng) -> f64 {
    loop {
        let x = pattern(rng);
        if x.is_finite() {
            return x;
        }
    }
}

/// How many points: few mostly, every number to 40, and sometimes around the most that are taken.
fn points(rng: &mut Rng) -> usize {
    match rng.below(4096) {
        0 => MOST_POINTS - 2 + index(rng, 5),
        1..=2 => 301 + index(rng, 3794),
        3..=32 => 41 + index(rng, 260),
        n if n % 2 == 0 => index(rng, 41),
        _ => 2 + index(rng, 9),
    }
}

fn settings(rng: &mut Rng) -> Settings {
    let mut share = || match rng.below(3) {
        0 => rng.unit(),
        _ => rng.pick(&SHARES),
    };
    let (quadraticity, monotonicity) = (share(), share());
    Settings {
        quadraticity,
        monotonicity,
        positivity: !rng.chance(3),
    }
}

fn room(rng: &mut Rng) -> Room {
    match rng.below(8) {
        0..=4 => Room::default(),
        _ => {
            let mut more = || rng.pick(&[0, 0, 1, 2, RECORD, RECORD + 1]);
            Room {
                nodes: more(),
                tags: more(),
                slots: more(),
                sections: more(),
                tail: more(),
                column: more(),
                knots: more(),
            }
        }
    }
}

fn shorten(rng: &mut Rng, room: &mut Room) {
    let less = rng.pick(&[-1, -1, -BEHIND, -RECORD, -100_000]);
    match rng.below(7) {
        0 => room.nodes = less,
        1 => room.tags = less,
        2 => room.slots = less,
        3 => room.sections = less,
        4 => room.tail = less,
        5 => room.column = less,
        _ => room.knots = less,
    }
}

/// Where a curve is asked. Long ones are asked at some of their knots alone.
fn queries(rng: &mut Rng, x: &[f64]) -> Queries {
    let (Some(&first), Some(&last)) = (x.first(), x.last()) else {
        return Queries::default();
    };
    let mut inside = Vec::new();
    let picked = x.len().min(8);
    for turn in 0..picked {
        let knot = match (x.len() == picked, turn) {
            (true, turn) => x[turn],
            (false, 0) => first,
            (false, 1) => last,
            (false, 2) => x[x.len() - 2],
            _ => rng.pick(x),
        };
        inside.extend([knot.next_down(), knot, knot.next_up()]);
    }
    for _ in 0..picked.max(4) {
        let place = index(rng, x.len());
        let (left, right) = (x[place.saturating_sub(1)], x[place]);
        // Halves first, so that far ends don't overflow.
        let share = rng.unit();
        inside.push(left * (1.0 - share) + right * share);
    }
    let length = last / 2.0 - first / 2.0;
    let mut anywhere = vec![
        first.next_down(),
        last.next_up(),
        first - length * rng.unit(),
        last + length * rng.unit(),
        rng.between(-1.0e3, 1.0e3),
        pattern(rng),
        rng.pick(&ENDS),
        rng.pick(x),
    ];
    for special in [0.0, -0.0, f64::INFINITY, f64::NEG_INFINITY, f64::NAN] {
        match rng.below(4) {
            0 => inside.push(special),
            1 => anywhere.push(special),
            _ => {}
        }
    }
    if rng.chance(4) {
        inside.extend_from_slice(&anywhere);
    }
    let strips = strips(rng, x, &inside, &anywhere);
    Queries {
        inside,
        anywhere,
        breaks: true,
        strips,
    }
}

/// Strips between places where a curve is asked. Most of them rise.
fn strips(rng: &mut Rng, x: &[f64], inside: &[f64], anywhere: &[f64]) -> Strips {
    let strip = |rng: &mut Rng, places: &[f64]| {
        let (a, b) = (rng.pick(places), rng.pick(places));
        match rng.below(8) {
            0 => (a, a),
            1 => (b.max(a), a.min(b)),
            2 => (a, b),
            _ => (a.min(b), b.max(a)),
        }
    };
    let all = [inside, anywhere].concat();
    let place = |rng: &mut Rng| match rng.below(16) {
        0 => rng.pick(&[x.len(), x.len() + 1, usize::MAX]),
        _ => index(rng, x.len()),
    };
    let between = |rng: &mut Rng| {
        let (i, j) = (place(rng), place(rng));
        if rng.chance(4) {
            (i, j)
        } else {
            (i.min(j), i.max(j))
        }
    };
    Strips {
        inside: (0..6).map(|_| strip(rng, inside)).collect(),
        anywhere: (0..6).map(|_| strip(rng, &all)).collect(),
        between: (0..3).map(|_| between(rng)).collect(),
    }
}

/// Any number at all, ordinary ones often.
fn number(rng: &mut Rng) -> f64 {
    match rng.below(4) {
        0 => pattern(rng),
        1 => rng.pick(&ENDS),
        2 => rng.whole(-8, 8) / 2.0,
        _ => rng.between(-10.0, 60.0),
    }
}

/// A tag, legal or not.
fn tag(rng: &mut Rng) -> u16 {
    let legal = rng.pick(&legal_tags());
    match rng.below(4) {
        0 => rng.word() as u16,
        1 => legal ^ (1 << rng.below(16)),
        _ => legal,
    }
}

//! Rounder numbers and shorter lists.

use crate::case::Case;

/// A list of more entries is long: its entries are not tried one by one.
const LONG: usize = 64;

/// A measure that falls with every step, so that the search ends: the bits that are set, and where they are.
fn weight(x: f64) -> u64 {
    let digits = x.to_bits() & ((1 << 52) - 1);
    let length = 52 - u64::from(digits.trailing_zeros().min(52));
    let size = (x.to_bits() >> 52 & 0x7ff).abs_diff(1023);
    match x {
        _ if x.to_bits() == 0 => 0,
        _ if x == 1.0 => 1,
        _ => 2 + 4 * length + size + u64::from(x.is_sign_negative()),
    }
}

/// Rounder numbers than this one.
pub fn rounder(x: f64) -> Vec<f64> {
    let bits = x.to_bits();
    let mut all = vec![0.0, 1.0, x.abs(), x.trunc(), x.round()];
    for kept in [0, 1, 2, 4, 8, 16, 32, 48, 51] {
        let low = bits & !((1 << (52 - kept)) - 1);
        all.push(f64::from_bits(low));
        all.push(f64::from_bits(low.wrapping_add(1 << (52 - kept))));
    }
    // The same digits at an ordinary size.
    all.push(f64::from_bits(bits & !(0x7ff << 52) | 1023 << 52));
    all.retain(|&other| weight(other) < weight(x));
    all.sort_by_key(|&other| weight(other));
    all.dedup_by_key(|x| x.to_bits());
    all
}

/// Stretches of a list to leave out: halves first, single entries last. Of a long list not all are tried.
pub fn stretches(count: usize) -> Vec<(usize, usize)> {
    let mut all = Vec::new();
    let mut length = count.div_ceil(2);
    while length > 0 {
        let step = length.max(count / LONG);
        let ends = |from: usize| (from, (from + length).min(count));
        all.extend((0..count).step_by(step).map(ends));
        length /= 2;
    }
    all
}

pub fn without<T: Clone>(list: &[T], (from, to): (usize, usize)) -> Vec<T> {
    let (from, to) = (from.min(list.len()), to.min(list.len()));
    [&list[..from], &list[to..]].concat()
}

/// Each list that is this one with one number rounder; of a long list, with a part of it zeros.
pub fn rounder_lists(list: &[f64]) -> Vec<Vec<f64>> {
    let mut all = Vec::new();
    if list.len() > LONG {
        for (from, to) in stretches(list.len()) {
            if list[from..to].iter().any(|&x| weight(x) > 0) {
                let mut list = list.to_vec();
                list[from..to].fill(0.0);
                all.push(list);
            }
        }
        return all;
    }
    for (place, &x) in list.iter().enumerate() {
        for other in rounder(x) {
            let mut list = list.to_vec();
            list[place] = other;
            all.push(list);
        }
    }
    all
}

/// Rounder knots, and with each the same number wherever else it stands on the line.
pub fn rounder_places(case: &Case) -> Vec<Case> {
    let mut all = Vec::new();
    let mut with = |change: &dyn Fn(f64) -> f64| {
        let mut case = case.clone();
        for place in case.places() {
            *place = change(*place);
        }
        all.push(case);
    };
    let knots = case.knots();
    let counted: Vec<f64> = (0..knots.len()).map(|place| place as f64).collect();
    let total = |list: &[f64]| list.iter().map(|&x| weight(x)).sum::<u64>();
    if total(&counted) < total(knots) {
        with(&|x| {
            let same = |knot: &f64| knot.to_bits() == x.to_bits();
            knots
                .iter()
                .position(same)
                .map_or(x, |place| counted[place])
        });
    }
    let mut own = case.clone();
    let mut places: Vec<f64> = own.places().into_iter().map(|x| *x).collect();
    places.sort_by(f64::total_cmp);
    places.dedup_by_key(|x| x.to_bits());
    if places.len() <= LONG {
        for old in places {
            for new in rounder(old) {
                with(&|x| if x.to_bits() == old.to_bits() { new } else { x });
            }
        }
    }
    all
}

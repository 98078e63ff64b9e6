//! Strips that the safe mode makes its promise for: averages of 0 or above with the largest from 0.001 to 1e153, and knots so far
//! apart that the floats between two of them are fine.

use oracle::answers::rng::Rng;

pub struct Strip {
    pub x: Vec<f64>,
    pub y: Vec<f64>,
}

/// A sort of strip with so many periods, by its name.
type Sort = (&'static str, fn(&mut Rng, usize) -> Strip);

const SORTS: [Sort; 14] = [
    ("calm", |rng, n| over_months(rng, n, calm)),
    ("wild", |rng, n| over_months(rng, n, wild)),
    ("alike", |rng, n| over_months(rng, n, alike)),
    ("odd lengths and sizes", odd),
    ("with zeros", zeros),
    ("cheap ends", cheap_ends),
    ("any sizes beside an ordinary one", spread),
    ("tiny beside the neighbours", |rng, n| {
        over_months(rng, n, tiny)
    }),
    ("huge", |rng, n| over_months(rng, n, huge)),
    ("level", level),
    ("a parabola that touches zero", |rng, _| touched(rng, false)),
    ("a fourth kind that touches zero", |rng, _| {
        touched(rng, true)
    }),
    ("whole days", whole_days),
    ("across zero", across_zero),
];

/// 10 to a power between these.
fn ten_to(rng: &mut Rng, low: f64, high: f64) -> f64 {
    10.0_f64.powf(rng.between(low, high))
}

fn cents(price: f64) -> f64 {
    (price * 100.0).round() / 100.0
}

fn months(rng: &mut Rng, periods: usize, from: f64) -> Vec<f64> {
    let mut x = vec![from];
    for place in 0..periods {
        x.push(x[place] + rng.pick(&[28.0, 30.0, 31.0]));
    }
    x
}

fn over_months(rng: &mut Rng, n: usize, prices: fn(&mut Rng, usize) -> Vec<f64>) -> Strip {
    let from = rng.pick(&[0.0, 0.0, 46000.0]);
    let x = months(rng, n, from);
    let y = prices(rng, n + 1);
    Strip { x, y }
}

fn calm(rng: &mut Rng, points: usize) -> Vec<f64> {
    let mut price = rng.between(15.0, 60.0);
    let mut next = || {
        price *= rng.between(0.9, 1.1);
        cents(price)
    };
    (0..points).map(|_| next()).collect()
}

fn wild(rng: &mut Rng, points: usize) -> Vec<f64> {
    let price = |_| cents(rng.between(0.01, 60.0));
    (0..points).map(price).collect()
}

fn alike(rng: &mut Rng, points: usize) -> Vec<f64> {
    let mut price = rng.between(15.0, 150.0);
    let mut next = || {
        if rng.chance(2) {
            price = rng.between(15.0, 150.0);
        }
        cents(price)
    };
    (0..points).map(|_| next()).collect()
}

fn tiny(rng: &mut Rng, points: usize) -> Vec<f64> {
    let mut base = rng.between(1.0, 100.0);
    let mut next = || {
        if rng.chance(3) {
            base = rng.between(1.0, 100.0);
        }
        match rng.chance(2) {
            true => base * ten_to(rng, -20.0, -10.0),
            false => base,
        }
    };
    (0..points).map(|_| next()).collect()
}

fn huge(rng: &mut Rng, points: usize) -> Vec<f64> {
    let top = rng.between(140.0, 153.0);
    (0..points).map(|_| ten_to(rng, top - 2.0, top)).collect()
}

fn odd(rng: &mut Rng, n: usize) -> Strip {
    let (mut x, mut y) = (vec![rng.pick(&[0.0, -1000.0, 46000.0])], vec![1.0]);
    for place in 0..n {
        let any = ten_to(rng, -0.6, 2.5);
        x.push(x[place] + rng.pick(&[1.0, 28.0, 30.0, 31.0, any]));
        let same = rng.chance(5).then_some(y[place]);
        y.push(same.unwrap_or_else(|| ten_to(rng, -6.0, 6.0)));
    }
    Strip { x, y }
}

fn zeros(rng: &mut Rng, n: usize) -> Strip {
    let mut strip = match rng.below(4) {
        0 => over_months(rng, n, calm),
        1 => over_months(rng, n, alike),
        2 => odd(rng, n),
        _ => over_months(rng, n, wild),
    };
    for average in &mut strip.y {
        *average = match rng.below(10) {
            0 | 1 => 0.0,
            2 => -0.0,
            _ => *average,
        };
    }
    strip
}

/// End nodes that fall below zero are put there.
fn cheap_ends(rng: &mut Rng, n: usize) -> Strip {
    let mut strip = over_months(rng, n.max(2), wild);
    let (y, last) = (&mut strip.y, strip.x.len() - 1);
    y[1] = y[2] * ten_to(rng, -6.0, -0.3);
    y[last] = y[last - 1] * ten_to(rng, -6.0, -0.3);
    strip
}

fn spread(rng: &mut Rng, n: usize) -> Strip {
    let mut strip = over_months(rng, n, calm);
    for average in &mut strip.y {
        *average = match rng.below(20) {
            0 | 1 => 0.0,
            2..=9 => ten_to(rng, -300.0, 12.0),
            _ => ten_to(rng, -10.0, 12.0),
        };
    }
    let ordinary = 1 + rng.below(n as u64) as usize;
    strip.y[ordinary] = ten_to(rng, -2.0, 12.0);
    strip
}

fn level(rng: &mut Rng, n: usize) -> Strip {
    let mut strip = over_months(rng, n, calm);
    let unit = rng.pick(&[0.25, 1.0, 0.01, 1.0e6]);
    let mut price = unit;
    for average in &mut strip.y {
        if rng.chance(2) {
            price = unit * rng.whole(0, 40);
        }
        *average = price;
    }
    let last = strip.x.len() - 1;
    if rng.chance(2) {
        strip.y[last] *= ten_to(rng, -20.0, -0.3);
    }
    strip
}

/// Five months, the middle one a few floats from the average at which it touches zero.
fn touched(rng: &mut Rng, fourth: bool) -> Strip {
    let x = months(rng, 5, 0.0);
    let size = ten_to(rng, -1.0, 8.0);
    let price = |_| size * ten_to(rng, -3.0, 0.0);
    let mut y: Vec<f64> = (0..6).map(price).collect();
    if rng.chance(3) {
        y[2] = size * ten_to(rng, -12.0, 0.0);
    }
    let node =
        |y: &[f64], i: usize| havgrunel::inner_node(x[i - 1], x[i], x[i + 1], y[i], y[i + 1]);
    let (mut low, mut high) = (0.0, y[2].max(y[4]));
    for _ in 0..100 {
        y[3] = low + (high - low) / 2.0;
        let (f_prev, f_next) = (node(&y, 2), node(&y, 3));
        let touching = match fourth {
            true => (f_prev + f_next) / 6.0,
            false => (f_prev + f_next - (f_prev * f_next).sqrt()) / 3.0,
        };
        if y[3] < touching {
            low = y[3];
        } else {
            high = y[3];
        }
    }
    y[3] = low;
    for _ in 0..rng.below(4) {
        y[3] = match rng.chance(2) {
            true => y[3].next_up(),
            false => y[3].next_down().max(0.0),
        };
    }
    Strip { x, y }
}

fn whole_days(rng: &mut Rng, n: usize) -> Strip {
    let (mut x, mut y) = (vec![rng.whole(-50_000, 50_000)], vec![0.0]);
    for place in 0..n {
        x.push(x[place] + rng.whole(1, 366));
        y.push(match rng.below(10) {
            0 => 0.0,
            1..=3 => ten_to(rng, -40.0, 0.0),
            _ => ten_to(rng, -3.0, 3.0),
        });
    }
    let ordinary = 1 + rng.below(n as u64) as usize;
    y[ordinary] = ten_to(rng, -2.0, 4.0);
    Strip { x, y }
}

fn across_zero(rng: &mut Rng, n: usize) -> Strip {
    let mut x = vec![-ten_to(rng, 0.0, 3.0)];
    for place in 0..n {
        x.push(x[place] + ten_to(rng, -1.0, 3.0));
    }
    let y = tiny(rng, n + 1);
    Strip { x, y }
}

/// A strip of any sort, and the sort's name.
pub fn strip(rng: &mut Rng) -> (&'static str, Strip) {
    let periods = match rng.chance(2) {
        true => 2 + rng.below(5),
        false => 2 + rng.below(23),
    };
    let (name, drawn) = rng.pick(&SORTS);
    (name, drawn(rng, periods as usize))
}

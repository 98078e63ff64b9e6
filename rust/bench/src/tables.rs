//! Seeded winters: months with dear winters and cheap summers, with spikes, with months at next to nothing, and with prices that
//! stay for a while. The cheap months between dear ones are what splits a section that must stay above zero.

use oracle::answers::rng::Rng;

pub struct Table {
    pub knots: Vec<f64>,
    pub averages: Vec<f64>,
}

/// How dear each month is, from January on.
const SHAPE: [f64; 12] = [
    1.45, 1.4, 1.2, 1.0, 0.8, 0.6, 0.5, 0.55, 0.7, 0.95, 1.2, 1.4,
];
const DAYS: [f64; 12] = [
    31.0, 28.0, 31.0, 30.0, 31.0, 30.0, 31.0, 31.0, 30.0, 31.0, 30.0, 31.0,
];

impl Table {
    pub fn points(&self) -> usize {
        self.knots.len()
    }

    pub fn sections(&self) -> usize {
        self.points() - 1
    }

    fn drawn(rng: &mut Rng, points: usize) -> Table {
        let mut month = rng.below(12) as usize;
        let mut day = 0.0;
        let mut stays = 0;
        let level = rng.between(15.0, 45.0);
        let mut price = level;
        let mut table = Table {
            knots: Vec::with_capacity(points),
            averages: Vec::with_capacity(points),
        };
        for _ in 0..points {
            table.knots.push(day / 365.0);
            day += DAYS[month];
            if stays > 0 {
                stays -= 1;
            } else {
                price = level * SHAPE[month] * rng.between(0.85, 1.15);
                match rng.below(24) {
                    0..=3 => price *= rng.between(0.02, 0.2),
                    4..=5 => price *= rng.between(2.0, 3.0),
                    6 => stays = 3,
                    _ => {}
                }
            }
            table.averages.push(price);
            month = (month + 1) % 12;
        }
        table
    }
}

/// As many tables of so many points as hold about 8,192 points together: a branch that goes the same way each time a
/// small table comes round would otherwise be learnt by the processor, and look cheaper than it is.
pub fn winters(points: usize) -> Vec<Table> {
    let rng = &mut Rng::new(points as u64);
    let tables = (8192 / points).max(2);
    (0..tables).map(|_| Table::drawn(rng, points)).collect()
}

/// One table.
pub fn winter(points: usize) -> Table {
    Table::drawn(&mut Rng::new(!(points as u64)), points)
}

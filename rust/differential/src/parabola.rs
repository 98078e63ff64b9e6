//! The parabola that may be split, written anew from 000's formulas: what the library's are held against by rules that the original
//! has not. Nothing here asks the library.

/// What a parabola is made from.
#[derive(Clone, Copy)]
pub struct Period {
    pub x_prev: f64,
    pub x_next: f64,
    pub f_prev: f64,
    pub f_next: f64,
    pub average: f64,
    pub total: f64,
}

impl Period {
    /// The discriminant of the parabola over it: above 0 where that has two zeros, and a NaN where its products overflow.
    pub fn discriminant(&self) -> f64 {
        let (a, b) = coefficients(self.f_prev, self.f_next, self.average);
        b * b - 4.0 * a * self.f_prev
    }
}

/// What a rule makes of a parabola.
#[derive(Clone, Copy)]
pub enum Made {
    Whole,
    /// Two arms of the parabola with this average, which touches zero.
    Split(f64),
    /// Whole, and level at this price.
    Level(f64),
}

/// The numbers that only a split parabola has.
struct Arms {
    ratio: f64,
    /// Where the first arm ends and the second starts, and the total between them.
    first_to: f64,
    second_from: f64,
    total: f64,
}

/// A parabola that may be split: c + b v + a v v, with v from 0 to 1 over its length.
pub struct Parabola {
    period: Period,
    a: f64,
    b: f64,
    length: f64,
    arms: Option<Arms>,
}

/// The parabola with these ends and this average.
fn coefficients(f_prev: f64, f_next: f64, average: f64) -> (f64, f64) {
    let a = 3.0 * f_prev + 3.0 * f_next - 6.0 * average;
    let b = -(4.0 * f_prev + 2.0 * f_next - 6.0 * average);
    (a, b)
}

/// The total up to v of such a parabola of this length.
fn under(total: f64, length: f64, (a, b, c): (f64, f64, f64), v: f64) -> f64 {
    total + length * (a / 3.0 * v * v + b / 2.0 * v + c) * v
}

impl Parabola {
    pub fn new(period: Period, made: Made) -> Parabola {
        match made {
            Made::Whole => Parabola::whole(period),
            Made::Split(touching) => Parabola::split(period, touching),
            Made::Level(price) => Parabola::whole(Period {
                f_prev: price,
                f_next: price,
                average: price,
                ..period
            }),
        }
    }

    fn whole(period: Period) -> Parabola {
        let (a, b) = coefficients(period.f_prev, period.f_next, period.average);
        Parabola {
            period,
            a,
            b,
            length: period.x_next - period.x_prev,
            arms: None,
        }
    }

    fn split(period: Period, touching: f64) -> Parabola {
        let Period {
            x_prev,
            x_next,
            f_prev,
            f_next,
            average,
            total,
        } = period;
        let ratio = average / touching;
        let length = (x_next - x_prev) * ratio;
        let (a, b) = coefficients(f_prev, f_next, touching);
        let zero = -b / (2.0 * a);
        Parabola {
            period,
            a,
            b,
            length,
            arms: Some(Arms {
                ratio,
                first_to: x_prev + length * zero,
                second_from: x_next - length * (1.0 - zero),
                total: under(total, length, (a, b, f_prev), zero),
            }),
        }
    }

    pub fn is_split(&self) -> bool {
        self.arms.is_some()
    }

    /// Its twelve numbers as a record has them.
    pub fn fields(&self) -> [f64; 12] {
        let period = &self.period;
        let (ratio, first_to, second_from, between) = match &self.arms {
            Some(arms) => (arms.ratio, arms.first_to, arms.second_from, arms.total),
            None => (1.0, 0.0, 0.0, 0.0),
        };
        [
            period.x_prev,
            first_to,
            second_from,
            period.x_next,
            self.a,
            self.b,
            period.f_prev,
            period.total,
            between,
            period.f_next,
            self.length,
            ratio,
        ]
    }

    /// How far x is on the way from one knot to the next.
    fn share(&self, x: f64) -> f64 {
        (x - self.period.x_prev) / (self.period.x_next - self.period.x_prev)
    }

    pub fn value(&self, x: f64) -> f64 {
        let share = self.share(x);
        let v = match &self.arms {
            None => share,
            Some(arms) if x <= arms.first_to => share / arms.ratio,
            Some(arms) if x < arms.second_from => return 0.0,
            Some(arms) => 1.0 - (1.0 - share) / arms.ratio,
        };
        self.period.f_prev + self.b * v + self.a * v * v
    }

    pub fn primitive(&self, x: f64) -> f64 {
        let share = self.share(x);
        let v = match &self.arms {
            None => share,
            Some(arms) if x < arms.first_to => share / arms.ratio,
            Some(arms) if x < arms.second_from => return arms.total,
            Some(arms) => 1.0 - (1.0 - share) / arms.ratio,
        };
        let parabola = (self.a, self.b, self.period.f_prev);
        under(self.period.total, self.length, parabola, v)
    }

    pub fn f_next(&self) -> f64 {
        self.period.f_next
    }
}

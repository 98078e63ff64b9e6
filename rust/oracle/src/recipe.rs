//! What a section is made from: its kind and the arguments of the original's
//! `new`, in the order that `new` declares.

use crate::words;

/// A quadratic part: x_prev, x_next, f_prev, f_next, f_average, prev_primitive.
#[derive(Clone, Copy, Debug)]
pub enum Quadratic {
    Plain([f64; 6]),
    Min([f64; 6]),
}

/// A convex part: x_prev, x_next, g_prev, g_next, f_average, eta,
/// prev_primitive.
#[derive(Clone, Copy, Debug)]
pub enum Convex {
    Two([f64; 7]),
    Three([f64; 7]),
    Four([f64; 7]),
    FourMin([f64; 7]),
}

/// A section to be made.
#[derive(Clone, Copy, Debug)]
pub enum Recipe {
    /// value, prev_primitive, x_prev
    Constant([f64; 3]),
    /// f_prev, prev_primitive, x_prev, x_next, f_next
    Gradient([f64; 5]),
    Convex(Convex),
    Quadratic(Quadratic),
    /// The weight of the quadratic part, and the two parts.
    Combination(f64, Quadratic, Convex),
}

impl Quadratic {
    pub fn kind(&self) -> u8 {
        match self {
            Quadratic::Plain(_) => 7,
            Quadratic::Min(_) => 8,
        }
    }

    pub fn args(&self) -> &[f64; 6] {
        let (Quadratic::Plain(args) | Quadratic::Min(args)) = self;
        args
    }

    pub fn of_kind(kind: u64, args: [f64; 6]) -> Option<Quadratic> {
        match kind {
            7 => Some(Quadratic::Plain(args)),
            8 => Some(Quadratic::Min(args)),
            _ => None,
        }
    }
}

impl Convex {
    pub fn kind(&self) -> u8 {
        match self {
            Convex::Two(_) => 3,
            Convex::Three(_) => 4,
            Convex::Four(_) => 5,
            Convex::FourMin(_) => 6,
        }
    }

    pub fn args(&self) -> &[f64; 7] {
        let (Convex::Two(args) | Convex::Three(args) | Convex::Four(args) | Convex::FourMin(args)) =
            self;
        args
    }

    pub fn of_kind(kind: u64, args: [f64; 7]) -> Option<Convex> {
        match kind {
            3 => Some(Convex::Two(args)),
            4 => Some(Convex::Three(args)),
            5 => Some(Convex::Four(args)),
            6 => Some(Convex::FourMin(args)),
            _ => None,
        }
    }
}

impl Recipe {
    /// The kind's number, 1 to 9.
    pub fn kind(&self) -> u8 {
        match self {
            Recipe::Constant(_) => 1,
            Recipe::Gradient(_) => 2,
            Recipe::Convex(part) => part.kind(),
            Recipe::Quadratic(part) => part.kind(),
            Recipe::Combination(..) => 9,
        }
    }

    /// Appends the kind and its arguments as words.
    pub fn push(&self, line: &mut String) {
        words::push(line, self.kind().into());
        match self {
            Recipe::Constant(args) => words::push_floats(line, args),
            Recipe::Gradient(args) => words::push_floats(line, args),
            Recipe::Convex(part) => words::push_floats(line, part.args()),
            Recipe::Quadratic(part) => words::push_floats(line, part.args()),
            Recipe::Combination(weight, quadratic, convex) => {
                words::push_floats(line, &[*weight]);
                words::push(line, quadratic.kind().into());
                words::push_floats(line, quadratic.args());
                words::push(line, convex.kind().into());
                words::push_floats(line, convex.args());
            }
        }
    }

    /// Reads what `push` writes; nothing may be left over.
    pub fn read(words: &[u64]) -> Option<Recipe> {
        let (&kind, args) = words.split_first()?;
        match kind {
            1 => Some(Recipe::Constant(floats(args)?)),
            2 => Some(Recipe::Gradient(floats(args)?)),
            3..=6 => Convex::of_kind(kind, floats(args)?).map(Recipe::Convex),
            7 | 8 => Quadratic::of_kind(kind, floats(args)?).map(Recipe::Quadratic),
            9 => {
                let (&[weight, quadratic], rest) = args.split_first_chunk()?;
                let (first, rest) = rest.split_first_chunk::<6>()?;
                let (&convex, second) = rest.split_first()?;
                Some(Recipe::Combination(
                    f64::from_bits(weight),
                    Quadratic::of_kind(quadratic, first.map(f64::from_bits))?,
                    Convex::of_kind(convex, floats(second)?)?,
                ))
            }
            _ => None,
        }
    }
}

/// Exactly as many floats as are asked for.
fn floats<const N: usize>(words: &[u64]) -> Option<[f64; N]> {
    let words: [u64; N] = words.try_into().ok()?;
    Some(words.map(f64::from_bits))
}

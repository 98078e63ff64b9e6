//! How often each kind of section occurs.

use std::fmt;

/// The parts that a tag can name: a mask, the bits under it, and the part's name.
const PARTS: [(u16, u16, &str); 10] = [
    (0x0f00, 0x0100, "EverywhereConstant"),
    (0x0f00, 0x0200, "ConstantGrad"),
    (0x0f00, 0x0300, "ConvexMonotone2"),
    (0x0f00, 0x0400, "ConvexMonotone3"),
    (0x0f00, 0x0500, "ConvexMonotone4"),
    (0x0f80, 0x0600, "ConvexMonotone4Min"),
    (0x0f80, 0x0680, "ConvexMonotone4Min split"),
    (0xe000, 0x2000, "Quadratic"),
    (0xf000, 0x4000, "QuadraticMin"),
    (0xf000, 0x5000, "QuadraticMin split"),
];

/// How many sections have each part; a combination has two.
#[derive(Default)]
pub struct Kinds {
    sections: usize,
    parts: [usize; PARTS.len()],
}

impl Kinds {
    pub fn add(&mut self, tags: &[u16]) {
        self.sections += tags.len();
        for &tag in tags {
            for (count, (mask, bits, _)) in self.parts.iter_mut().zip(PARTS) {
                *count += usize::from(tag & mask == bits);
            }
        }
    }
}

impl fmt::Display for Kinds {
    fn fmt(&self, f: &mut fmt::Formatter<'_>) -> fmt::Result {
        let mut between = "";
        for (count, (_, _, name)) in self.parts.iter().zip(PARTS) {
            if *count > 0 {
                let share = 100.0 * *count as f64 / self.sections as f64;
                write!(f, "{between}{name} {share:.1} %")?;
                between = ", ";
            }
        }
        Ok(())
    }
}

#[cfg(test)]
mod tests {
    use super::*;

    #[test]
    fn a_combination_counts_for_both_of_its_parts() {
        let mut kinds = Kinds::default();
        kinds.add(&[0x5680, 0x2000, 0x0200, 0x4600]);
        assert_eq!(
            kinds.to_string(),
            "ConstantGrad 25.0 %, ConvexMonotone4Min 25.0 %, ConvexMonotone4Min split 25.0 %, \
             Quadratic 25.0 %, QuadraticMin 25.0 %, QuadraticMin split 25.0 %"
        );
    }
}

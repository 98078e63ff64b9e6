//! Medians and percentiles.

/// The number below which this share of the numbers lies, with a straight line between neighbours: 0.5 is the median.
pub fn percentile(numbers: &[f64], share: f64) -> f64 {
    assert!(!numbers.is_empty(), "there is no percentile of no numbers");
    assert!((0.0..=1.0).contains(&share), "a share is from 0 to 1");
    let mut sorted = numbers.to_vec();
    sorted.sort_by(f64::total_cmp);
    let place = share * (sorted.len() - 1) as f64;
    let below = place.floor() as usize;
    let above = place.ceil() as usize;
    sorted[below] + (sorted[above] - sorted[below]) * (place - below as f64)
}

pub fn median(numbers: &[f64]) -> f64 {
    percentile(numbers, 0.5)
}

#[cfg(test)]
mod tests {
    use super::*;

    #[test]
    fn the_median_stands_in_the_middle() {
        assert_eq!(median(&[7.0]), 7.0);
        assert_eq!(median(&[9.0, 1.0, 4.0]), 4.0);
        assert_eq!(median(&[4.0, 1.0, 2.0, 100.0]), 3.0);
    }

    #[test]
    fn one_wild_number_does_not_move_the_median() {
        assert_eq!(median(&[2.0, 2.0, 1.0e9, 2.0, 2.0]), 2.0);
    }

    #[test]
    fn percentiles_lie_on_the_line_between_neighbours() {
        let numbers: Vec<f64> = (0..=10).rev().map(f64::from).collect();
        assert_eq!(percentile(&numbers, 0.0), 0.0);
        assert_eq!(percentile(&numbers, 0.1), 1.0);
        assert_eq!(percentile(&numbers, 0.9), 9.0);
        assert_eq!(percentile(&numbers, 1.0), 10.0);
        assert_eq!(percentile(&[10.0, 20.0], 0.25), 12.5);
    }

    #[test]
    #[should_panic(expected = "no percentile of no numbers")]
    fn no_numbers_have_no_median() {
        median(&[]);
    }
}

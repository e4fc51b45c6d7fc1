//! The exponent with which a cost grows, by least squares.

/// A cost that grows by less than this share from the first size to the last does not grow.
const STILL: f64 = 0.02;

/// The exponent of the part of a cost that grows with the size: the slope of the logarithm of what each step adds to
/// the cost, by that of what it adds to the size. A part that all sizes share adds nothing, whether it belongs to
/// the cost or to the size; a step that adds no cost counts as one instruction. 0 where the steps add less and less.
pub fn exponent(sizes: &[f64], costs: &[f64]) -> f64 {
    assert!(sizes.len() == costs.len() && sizes.len() > 2, "two steps");
    let [first, last] = [costs[0], costs[costs.len() - 1]];
    if last - first < STILL * first {
        return 0.0;
    }
    let steps = |of: &[f64]| -> Vec<f64> {
        let step = |two: &[f64]| (two[1] - two[0]).max(1.0).log2();
        of.windows(2).map(step).collect()
    };
    slope(&steps(sizes), &steps(costs)).max(0.0)
}

/// The slope of the line that is nearest to the points, by the squares of the distances up and down.
fn slope(across: &[f64], up: &[f64]) -> f64 {
    let mean = |of: &[f64]| of.iter().sum::<f64>() / of.len() as f64;
    let (middle, level) = (mean(across), mean(up));
    let both = across.iter().zip(up);
    let joint: f64 = both.map(|(x, y)| (x - middle) * (y - level)).sum();
    let spread: f64 = across.iter().map(|x| (x - middle).powi(2)).sum();
    joint / spread
}

#[cfg(test)]
mod tests {
    use super::*;

    const SIZES: [f64; 5] = [8.0, 16.0, 32.0, 64.0, 128.0];

    fn fitted(cost: impl Fn(f64) -> f64) -> f64 {
        exponent(&SIZES, &SIZES.map(cost))
    }

    fn near(one: f64, two: f64) -> bool {
        (one - two).abs() < 1e-9
    }

    #[test]
    fn a_power_is_found_whatever_all_sizes_share() {
        for power in [0.5, 1.0, 1.5, 2.0, 3.0] {
            for shared in [0.0, 1_000.0, 10_000.0] {
                let found = fitted(|size| shared + 100.0 * size.powf(power));
                assert!((found - power).abs() < 1e-6, "{found} for {power}");
            }
        }
    }

    #[test]
    fn sizes_may_be_one_below_a_power_of_two() {
        let sizes = SIZES.map(|size| size - 1.0);
        let found = exponent(&sizes, &sizes.map(|size| 500.0 + 30.0 * size));
        assert!(near(found, 1.0), "{found}");
    }

    #[test]
    fn the_larger_part_of_a_sum_of_powers_decides() {
        let found = fitted(|size| size + size.powi(2));
        assert!((1.9..2.0).contains(&found), "{found}");
        let found = fitted(|size| 1_000.0 * size + size.powi(2));
        assert!((1.0..1.2).contains(&found), "{found}");
    }

    #[test]
    fn points_off_the_line_are_weighed_by_squares() {
        // 1, 2, 4 and 16 at 1, 2, 4 and 8: (0, 0), (1, 1), (2, 2), (3, 4) in logarithms
        let sizes = [1.0, 2.0, 4.0, 8.0, 16.0];
        let costs = [10.0, 11.0, 13.0, 17.0, 33.0];
        let found = exponent(&sizes, &costs);
        assert!(near(found, 1.3), "{found}");
    }

    #[test]
    fn what_does_not_grow_has_no_exponent() {
        assert_eq!(fitted(|_| 5_000.0), 0.0);
        assert_eq!(fitted(|size| 100_000.0 + size), 0.0);
        assert_eq!(fitted(|size| 100_000.0 - 100.0 * size), 0.0);
        let found = fitted(|size| 1_000.0 + size);
        assert!(near(found, 1.0), "{found}");
    }

    #[test]
    fn what_grows_less_and_less_has_no_exponent() {
        assert_eq!(fitted(|size| 1_000.0 - 1_000.0 / size), 0.0);
        assert_eq!(exponent(&SIZES, &[100.0, 200.0, 200.0, 190.0, 190.0]), 0.0);
    }

    #[test]
    fn a_step_without_growth_counts_as_one_instruction() {
        // 1, 1 and 4 at 1, 2 and 4
        let found = exponent(&[1.0, 2.0, 4.0, 8.0], &[10.0, 11.0, 11.0, 15.0]);
        assert!(near(found, 1.0), "{found}");
    }
}

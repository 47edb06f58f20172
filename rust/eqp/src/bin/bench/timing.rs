//! How the bench takes times.

use std::fmt;
use std::time::Duration;

/// How often each side is timed; the median counts.
const ROUNDS: usize = 15;
/// How long one timing takes at least.
const TIMING: Duration = Duration::from_millis(12);

/// How often to do what takes this long, for one timing.
pub fn repeats(once: Duration) -> u64 {
    1 + (TIMING.as_nanos() / once.as_nanos().max(1)) as u64
}

/// The seconds of each side, round after round: the sides are timed in turn.
pub fn rounds<const N: usize>(mut sides: [&mut dyn FnMut() -> Duration; N]) -> [Vec<f64>; N] {
    let mut times: [Vec<f64>; N] = std::array::from_fn(|_| Vec::new());
    for _ in 0..ROUNDS {
        for (times, side) in times.iter_mut().zip(&mut sides) {
            times.push(side().as_secs_f64());
        }
    }
    times
}

/// The medians, in seconds, of timings taken in turn.
pub fn medians<const N: usize>(sides: [&mut dyn FnMut() -> Duration; N]) -> [f64; N] {
    rounds(sides).map(|times| median(&times))
}

/// The median of some values.
pub fn median(values: &[f64]) -> f64 {
    Spread::of(values.to_vec()).median
}

/// The geometric mean of some values.
pub fn geometric_mean(values: &[f64]) -> f64 {
    let sum: f64 = values.iter().map(|value| value.ln()).sum();
    (sum / values.len() as f64).exp()
}

/// The median of some values, and the least and the greatest of them.
pub struct Spread {
    least: f64,
    pub median: f64,
    greatest: f64,
}

impl Spread {
    /// # Panics
    ///
    /// Where there are no values.
    pub fn of(mut values: Vec<f64>) -> Self {
        values.sort_by(f64::total_cmp);
        Self {
            least: values[0],
            median: values[values.len() / 2],
            greatest: values[values.len() - 1],
        }
    }

    /// How much longer one side took than another, each round by itself.
    pub fn of_ratios(longer: &[f64], shorter: &[f64]) -> Self {
        let rounds = longer.iter().zip(shorter);
        Self::of(rounds.map(|(longer, shorter)| longer / shorter).collect())
    }
}

impl fmt::Display for Spread {
    fn fmt(&self, f: &mut fmt::Formatter) -> fmt::Result {
        let Self {
            least,
            median,
            greatest,
        } = self;
        f.pad(&format!("{median:.2} ({least:.2} to {greatest:.2})"))
    }
}

#[cfg(test)]
mod tests {
    use super::*;

    #[test]
    fn spreads() {
        let spread = Spread::of_ratios(&[6.0, 2.0, 9.0], &[2.0, 2.0, 2.0]);
        assert_eq!(spread.to_string(), "3.00 (1.00 to 4.50)");
        assert_eq!(median(&[2.0, 8.0, 1.0]), 2.0);
    }

    #[test]
    fn means() {
        assert!((geometric_mean(&[2.0, 8.0]) - 4.0).abs() < 1e-9);
    }
}

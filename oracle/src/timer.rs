//! Our time as a ratio to the Rust's, the two timed in turn in one run.

use std::fmt;
use std::hint::black_box;
use std::time::{Duration, Instant};

/// Medians over the rounds, and the ratio's range.
pub struct Ratio {
    pub rust: Duration,
    pub ours: Duration,
    pub median: f64,
    pub least: f64,
    pub most: f64,
}

impl fmt::Display for Ratio {
    fn fmt(&self, f: &mut fmt::Formatter<'_>) -> fmt::Result {
        let (least, median, most) = (self.least, self.median, self.most);
        write!(f, "ratio {median:.2} ({least:.2} to {most:.2}), ")?;
        write!(f, "rust {:.2?}, ours {:.2?}", self.rust, self.ours)
    }
}

/// The rounds that a median asks for.
pub const FEWEST_ROUNDS: usize = 5;

/// Times both `rounds` times, after one untimed turn of each.
pub fn ratio(rounds: usize, mut rust: impl FnMut(), mut ours: impl FnMut()) -> Ratio {
    rust();
    ours();
    let pairs: Vec<(Duration, Duration)> = (0..rounds.max(FEWEST_ROUNDS))
        .map(|_| (time(&mut rust), time(&mut ours)))
        .collect();
    let ratios = sorted(pairs.iter().map(|(r, o)| o.as_secs_f64() / r.as_secs_f64()));
    let middle = pairs.len() / 2;
    Ratio {
        rust: Duration::from_secs_f64(sorted(pairs.iter().map(|p| p.0.as_secs_f64()))[middle]),
        ours: Duration::from_secs_f64(sorted(pairs.iter().map(|p| p.1.as_secs_f64()))[middle]),
        median: ratios[middle],
        least: ratios[0],
        most: ratios[pairs.len() - 1],
    }
}

/// The same for two functions, each called on every input in a turn.
pub fn ratio_over<I, A, B>(
    inputs: &[I],
    mut rust: impl FnMut(&I) -> A,
    mut ours: impl FnMut(&I) -> B,
) -> Ratio {
    ratio(
        21,
        || {
            for input in inputs {
                black_box(rust(black_box(input)));
            }
        },
        || {
            for input in inputs {
                black_box(ours(black_box(input)));
            }
        },
    )
}

/// The median of so many times.
pub fn median(times: usize, mut work: impl FnMut()) -> Duration {
    let mut found: Vec<Duration> = (0..times).map(|_| time(&mut work)).collect();
    found.sort();
    found[times / 2]
}

fn time(work: &mut impl FnMut()) -> Duration {
    let start = Instant::now();
    work();
    start.elapsed()
}

fn sorted(values: impl Iterator<Item = f64>) -> Vec<f64> {
    let mut values: Vec<f64> = values.collect();
    values.sort_by(f64::total_cmp);
    values
}

//! How far angles are from the true ones, over all 65,536 pairs of signed bytes. Errors are in units, of which 65,536 are a
//! turn.

use std::f64::consts::PI;
use std::fmt;

/// A way to tell the angle of (x, y), y given first.
pub type Angle = fn(i32, i32) -> i16;

const TURN: f64 = 65_536.0;
const QUARTER: f64 = TURN / 4.0;

pub struct Errors {
    /// The mean of their sizes.
    pub mean: f64,
    /// The size of the largest.
    pub largest: f64,
    /// The mean of the errors with a sign: below 0 where the angle is closer to the nearest axis than the true one.
    pub lean: f64,
}

impl Errors {
    pub fn of(angle: Angle) -> Self {
        let (mut sizes, mut largest, mut leans) = (0.0, 0.0_f64, 0.0);
        for (y, x) in pairs() {
            let (told, exact) = (f64::from(angle(y, x)), exact(y, x));
            let size = apart(told, exact).abs();
            sizes += size;
            largest = largest.max(size);
            leans += from_axis(told) - from_axis(exact);
        }
        let count = pairs().count() as f64;
        Errors {
            mean: sizes / count,
            largest,
            lean: leans / count,
        }
    }
}

impl fmt::Display for Errors {
    fn fmt(&self, f: &mut fmt::Formatter<'_>) -> fmt::Result {
        let degrees = |units: f64| units * 360.0 / TURN;
        write!(f, "mean {:.2} ({:.3}°), ", self.mean, degrees(self.mean))?;
        let largest = (self.largest, degrees(self.largest));
        write!(f, "largest {:.1} ({:.3}°), ", largest.0, largest.1)?;
        write!(f, "lean {:.2}", self.lean)
    }
}

/// Every pair of signed bytes, imaginary part first.
pub fn pairs() -> impl Iterator<Item = (i32, i32)> {
    (-128..128).flat_map(|y| (-128..128).map(move |x| (y, x)))
}

/// The true angle; 0 for (0, 0), which has none.
fn exact(y: i32, x: i32) -> f64 {
    f64::from(y).atan2(x.into()) * (TURN / 2.0) / PI
}

/// a less b, within half a turn.
fn apart(a: f64, b: f64) -> f64 {
    (a - b + TURN / 2.0).rem_euclid(TURN) - TURN / 2.0
}

/// How far an angle is from the nearest axis.
fn from_axis(a: f64) -> f64 {
    let within = a.rem_euclid(QUARTER);
    within.min(QUARTER - within)
}

/// The errors, with their signs, of the pairs whose true angle is within one degree.
pub struct Degree {
    pub least: f64,
    pub mean: f64,
    pub most: f64,
}

/// For each degree from -180 to 180.
pub fn by_degree(angle: Angle) -> Vec<Degree> {
    let mut errors = vec![Vec::new(); 360];
    for (y, x) in pairs().filter(|pair| *pair != (0, 0)) {
        let exact = exact(y, x);
        let degree = ((exact / TURN + 0.5) * 360.0).floor() as usize % 360;
        errors[degree].push(apart(angle(y, x).into(), exact));
    }
    let summed = |errors: &Vec<f64>| Degree {
        least: errors.iter().copied().fold(f64::INFINITY, f64::min),
        mean: errors.iter().sum::<f64>() / errors.len() as f64,
        most: errors.iter().copied().fold(f64::NEG_INFINITY, f64::max),
    };
    errors.iter().map(summed).collect()
}

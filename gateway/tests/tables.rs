//! The angle tables against floating point, whose error is far smaller than any true value's distance
//! from a half (docs/TABLES.md has the closest calls).

use std::f64::consts::{FRAC_PI_2, PI};

use volkjarp::tables::{atan_256, atan_1024, sine_256, sine_1024};

const HALF_TURN: f64 = 32_768.0;
const UNIT: f64 = 16_384.0;

/// The whole numbers nearest `of` at all parts of 1, from 0 to 1.
fn nearest<const N: usize>(of: impl Fn(f64) -> f64) -> [u16; N] {
    let steps = (N - 1) as f64;
    std::array::from_fn(|i| of(i as f64 / steps).round() as u16)
}

#[test]
fn entries_are_the_nearest() {
    let angle = |part: f64| part.atan() / PI * HALF_TURN;
    let sine = |part: f64| (part * FRAC_PI_2).sin() * UNIT;
    assert_eq!(atan_256(), nearest(angle));
    assert_eq!(atan_1024(), nearest(angle));
    assert_eq!(sine_256(), nearest(sine));
    assert_eq!(sine_1024(), nearest(sine));
}

#[test]
fn each_fourth_is_that_of_the_coarser_table() {
    assert!(atan_1024().iter().step_by(4).eq(&atan_256()));
    assert!(sine_1024().iter().step_by(4).eq(&sine_256()));
}

/// Opposite sines are a sine and a cosine.
#[test]
fn squares_add_up() {
    let within = |sines: &[u16]| {
        let square = |sine: &u16| i64::from(*sine).pow(2);
        let opposite = sines.iter().zip(sines.iter().rev());
        let error = |(a, b)| square(a) + square(b) - (1 << 28);
        opposite.map(error).all(|error| error.abs() <= 24_000)
    };
    assert!(within(&sine_256()) && within(&sine_1024()));
}

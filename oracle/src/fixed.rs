//! Fixed-point numbers with 320 fractional bits; π, arctangents and sines in them, right to more than 60 decimal digits. The
//! series are others than those of docs/TABLES.md.

use std::array::from_fn;
use std::iter::successors;
use std::ops::{Add, Div, Mul, Sub};
use std::sync::LazyLock;

const WORDS: usize = 11;
const BITS: u32 = 32;

/// The whole part, then the words of the fraction, which are from 0 to below 2³².
#[derive(Clone, Copy, Debug, PartialEq, Eq, PartialOrd, Ord)]
pub struct Fixed([i128; WORDS]);

/// Machin's formula: π/4 is four times the arctangent of 1/5 less that of 1/239.
pub static PI: LazyLock<Fixed> = LazyLock::new(|| (gregory(1, 5) * 4 - gregory(1, 239)) * 4);

/// 1/π by Newton's steps from 1/3; each doubles the number of right digits.
pub static INVERSE_PI: LazyLock<Fixed> = LazyLock::new(|| {
    let step = |guess, _| guess * (Fixed::from(2) - *PI * guess);
    (0..8).fold(Fixed::from(1) / 3, step)
});

/// The arctangent of a/b, which is at most 1.
pub fn arctangent(a: u64, b: u64) -> Fixed {
    if 2 * a <= b {
        gregory(a, b)
    } else {
        *PI / 4 - gregory(b - a, b + a)
    }
}

/// The same up to 1/2: t − t³/3 + t⁵/5 − .. for t = a/b.
fn gregory(a: u64, b: u64) -> Fixed {
    let next = |power: &Fixed| Some(*power * (a * a) / (b * b));
    let powers = successors(Some(Fixed::from(a) / b), next);
    alternating(powers.zip(0..).map(|(power, k)| power / (2 * k + 1)))
}

/// The sine of an angle in radians, at most π/2: t − t³/3! + t⁵/5! − ..
pub fn sine(t: Fixed) -> Fixed {
    let square = t * t;
    let next = |(term, k): &(Fixed, u64)| {
        let below = (2 * k + 2) * (2 * k + 3);
        Some((*term * square / below, k + 1))
    };
    alternating(successors(Some((t, 0)), next).map(|(term, _)| term))
}

/// The first term less the second and so on, up to the first that is 0.
fn alternating(terms: impl Iterator<Item = Fixed>) -> Fixed {
    let zero = Fixed::from(0);
    let terms = terms.take_while(|term| *term != zero).enumerate();
    terms.fold(zero, |sum, (k, term)| match k % 2 {
        0 => sum + term,
        _ => sum - term,
    })
}

impl Fixed {
    /// Each word's bits above the lowest 32 go to the word before it.
    fn carried(mut words: [i128; WORDS]) -> Fixed {
        for k in (1..WORDS).rev() {
            words[k - 1] += words[k] >> BITS;
            words[k] &= (1 << BITS) - 1;
        }
        Fixed(words)
    }

    pub fn whole(self) -> u64 {
        self.0[0] as u64
    }

    pub fn fraction(self) -> Fixed {
        self - Fixed::from(self.whole())
    }

    /// The nearest whole number, half going up.
    pub fn nearest(self) -> u64 {
        (self + Fixed::from(1) / 2).whole()
    }

    /// The size of the difference.
    pub fn apart(self, other: Fixed) -> Fixed {
        self.max(other) - self.min(other)
    }
}

impl From<u64> for Fixed {
    fn from(whole: u64) -> Fixed {
        Fixed(from_fn(|k| if k == 0 { whole.into() } else { 0 }))
    }
}

impl From<Fixed> for f64 {
    fn from(fixed: Fixed) -> f64 {
        let add = |lower: f64, word: &i128| lower / 2_f64.powi(BITS as i32) + *word as f64;
        fixed.0.iter().rev().fold(0.0, add)
    }
}

impl Add for Fixed {
    type Output = Fixed;
    fn add(self, other: Fixed) -> Fixed {
        Fixed::carried(from_fn(|k| self.0[k] + other.0[k]))
    }
}

impl Sub for Fixed {
    type Output = Fixed;
    fn sub(self, other: Fixed) -> Fixed {
        Fixed::carried(from_fn(|k| self.0[k] - other.0[k]))
    }
}

/// Words below the lowest are left out, so that the lowest is not exact.
impl Mul for Fixed {
    type Output = Fixed;
    fn mul(self, other: Fixed) -> Fixed {
        let word = |k| (0..=k).map(|j| self.0[j] * other.0[k - j]).sum();
        Fixed::carried(from_fn(word))
    }
}

impl Mul<u64> for Fixed {
    type Output = Fixed;
    fn mul(self, factor: u64) -> Fixed {
        Fixed::carried(self.0.map(|word| word * i128::from(factor)))
    }
}

/// Rounded down; the number is not below 0.
impl Div<u64> for Fixed {
    type Output = Fixed;
    fn div(self, divisor: u64) -> Fixed {
        let mut rest = 0;
        Fixed(self.0.map(|word| {
            let left = (rest << BITS) + word;
            rest = left % i128::from(divisor);
            left / i128::from(divisor)
        }))
    }
}

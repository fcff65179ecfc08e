//! The angle tables: their true values, the rule of docs/TABLES.md read once more, and the Rust's constant tables.

use crate::fixed::{Fixed, INVERSE_PI, PI, arctangent, sine};
use crate::floored::ATAN_OCTANT;
use crate::vectors::SIN_QUARTER;

/// In units of an angle.
pub const HALF_TURN: u64 = 32_768;
/// The sine of a quarter turn.
pub const UNIT: u64 = 16_384;

/// The Rust's constant tables have the first.
pub const STEPS: [u64; 2] = [256, 1_024];

/// An entry is asked for by its place and the number of steps.
#[derive(Clone, Copy)]
pub struct Table {
    pub name: &'static str,
    pub true_value: fn(u64, u64) -> Fixed,
    pub by_rule: fn(&Rule, u64, u64) -> Unrounded,
    constant: fn(usize) -> u16,
}

pub const ATAN: Table = Table {
    name: "atan",
    true_value: |i, n| arctangent(i, n) * HALF_TURN * *INVERSE_PI,
    by_rule: Rule::atan,
    constant: |i| ATAN_OCTANT[i],
};

pub const SINE: Table = Table {
    name: "sine",
    true_value: |i, n| sine(*PI / 2 * i / n) * UNIT,
    by_rule: Rule::sine,
    constant: |i| SIN_QUARTER[i] as u16,
};

/// Each table with each number of steps.
pub fn tables() -> [(Table, u64); 4] {
    let [fewer, more] = STEPS;
    [(ATAN, fewer), (ATAN, more), (SINE, fewer), (SINE, more)]
}

impl Table {
    /// The whole numbers nearest the true values.
    pub fn nearest(&self, n: u64) -> Vec<u16> {
        let entry = |i| (self.true_value)(i, n).nearest() as u16;
        (0..=n).map(entry).collect()
    }

    pub fn ruled(&self, rule: &Rule, n: u64) -> Vec<u16> {
        let entry = |i| (self.by_rule)(rule, i, n).nearest() as u16;
        (0..=n).map(entry).collect()
    }

    /// The Rust's entry, where it has one for that part of the steps.
    pub fn constant(&self, i: u64, n: u64) -> Option<u16> {
        let part = i * STEPS[0];
        part.is_multiple_of(n)
            .then(|| (self.constant)((part / n) as usize))
    }
}

/// What the program angletables prints, from the true values.
pub fn lines() -> String {
    let lines = tables().map(|(table, n)| {
        let line = |(i, entry)| format!("{} {n} {i} {entry}\n", table.name);
        let entries = table.nearest(n).into_iter().enumerate();
        entries.map(line).collect::<String>()
    });
    lines.concat()
}

/// The numbers of the rule, which can be changed to see what they must be.
#[derive(Clone, Debug, PartialEq)]
pub struct Rule {
    /// Fractional bits of the numbers inside.
    pub bits: u32,
    /// How many fractions deep the arctangent is.
    pub fractions: u64,
    pub r: u64,
    pub a: [u64; 8],
}

pub const RULE: Rule = Rule {
    bits: 20,
    fractions: 32,
    r: 10_937_044_409,
    a: [
        26_986_075_409,
        11_097_578_693,
        1_369_108_894,
        80_431_924,
        2_756_359,
        61_828,
        978,
        11,
    ],
};

/// An entry before its last rounding: a/b.
pub struct Unrounded {
    pub a: u64,
    pub b: u64,
    /// The largest product on the way.
    pub largest: u128,
}

impl Unrounded {
    pub fn value(&self) -> Fixed {
        Fixed::from(self.a) / self.b
    }

    #[inline]
    pub fn nearest(&self) -> u64 {
        (self.a + self.b / 2) / self.b
    }
}

impl Rule {
    #[inline]
    pub fn atan(&self, i: u64, n: u64) -> Unrounded {
        let (s, q) = (i * i, i * i + n * n);
        let (mut x, mut largest) = (self.r, 0);
        for k in (1..=self.fractions).rev() {
            x = self.r + times(x, 2 * k * s, &mut largest) / ((2 * k + 1) * q);
        }
        Unrounded {
            a: times(x, i * n, &mut largest),
            b: q << self.bits,
            largest,
        }
    }

    #[inline]
    pub fn sine(&self, i: u64, n: u64) -> Unrounded {
        let (s, q) = (i * i, n * n);
        let (mut x, mut largest) = (self.a[7], 0);
        for k in (0..7).rev() {
            x = self.a[k] - times(x, s, &mut largest) / q;
        }
        Unrounded {
            a: times(x, i, &mut largest),
            b: n << self.bits,
            largest,
        }
    }
}

/// The product in 64 bits; the largest is kept in full, to see that it fits them.
#[inline]
fn times(a: u64, b: u64, largest: &mut u128) -> u64 {
    *largest = (*largest).max(u128::from(a) * u128::from(b));
    a.wrapping_mul(b)
}

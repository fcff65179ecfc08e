//! Settings and frames that are made up.

use std::array;
use std::f64::consts::TAU;

use oracle::frames::COLUMNS;
use oracle::random::Random;

use crate::calls::{Band, Config, Frame};

const BREATHING: Band = Band {
    lo_mhz: 150,
    hi_mhz: 550,
};
const HEART: Band = Band {
    lo_mhz: 700,
    hi_mhz: 2200,
};

/// Settings in range, with every end of a range among them.
pub fn config(random: &mut Random, n: usize) -> Config {
    let rate_hz = match random.below(5) {
        0 => random.pick(&[1, 1000]),
        1 => random.between(1, 1000) as u32,
        _ => random.pick(&[10, 25]),
    };
    let near = n as u16;
    Config {
        decim: random.pick(&[0, 1, 1, 1, 2, 5]),
        rate_hz,
        band: band(random, rate_hz, n as u64),
        update_every: match random.below(6) {
            0 => random.below(20) as u16,
            _ => random.pick(&[0, 1, 2, 3]),
        },
        accept_permille: match random.below(4) {
            0 => random.pick(&[0, 1000, 1001, 65_535]),
            1 => random.below(1000) as u16,
            _ => 400,
        },
        highpass: match random.below(3) {
            0 => 0,
            1 => random.pick(&[1, 2, 3, 4, 24, 25, 65_534, 65_535]),
            _ => random.pick(&[near / 2, near - 1, near, near + 1, 5, 6, 7]),
        },
    }
}

/// A usual band, one of wanted lags (narrow, wide, inverted, above 128), or any.
fn band(random: &mut Random, rate_hz: u32, n: u64) -> Band {
    let end = |random: &mut Random| (random.any_size() as u32).max(1);
    match random.below(12) {
        0 => Band {
            lo_mhz: end(random),
            hi_mhz: end(random),
        },
        1 => random.pick(&[BREATHING, HEART]),
        kind => {
            let first = match kind {
                2 => random.between(1, 140),
                _ => random.between(1, 2 + n.min(60) / 3),
            };
            let last = match kind {
                3 => first.saturating_sub(random.below(6)).max(1),
                4 => first + random.below(3),
                5 => random.between(125, 132),
                _ => first + random.between(2, n),
            };
            let rate = |lag: u64| (u64::from(rate_hz) * 1000 / lag).max(1) as u32;
            Band {
                lo_mhz: rate(last),
                hi_mhz: rate(first),
            }
        }
    }
}

/// What the amplitudes do.
#[derive(Clone, Copy)]
enum Kind {
    Noise,
    Rhythm,
    TwoRhythms,
    Equal,
    Extremes,
    Ramp,
    Any,
}

/// A source of frames, with a clock, and a count that now and then changes.
pub struct Source {
    kind: Kind,
    base: [u16; COLUMNS],
    swing: [f64; COLUMNS],
    jitter: u64,
    period: f64,
    at: u64,
    count: usize,
    change: u64,
    time: u64,
}

impl Source {
    /// For blocks of `decim` frames; the count changes once in `change` frames, or never.
    pub fn new(random: &mut Random, decim: u64, n: usize, change: u64) -> Source {
        let kind = random.pick(&[
            Kind::Noise,
            Kind::Rhythm,
            Kind::Rhythm,
            Kind::TwoRhythms,
            Kind::Equal,
            Kind::Extremes,
            Kind::Ramp,
            Kind::Any,
        ]);
        let level = random.pick(&[100, 1024, 1024, 32_767, 32_760, 60_000, 65_535]);
        let size = random.pick(&[1.0, 10.0, 100.0, 3000.0, 40_000.0]);
        let mut base = [0; COLUMNS];
        let mut swing = [0.0; COLUMNS];
        for (b, s) in base.iter_mut().zip(&mut swing) {
            *b = random.between(level / 2, level) as u16;
            *s = size * (random.below(2001) as f64 / 1000.0 - 1.0);
        }
        Source {
            kind,
            base,
            swing,
            jitter: random.pick(&[1, 1, 2, 5, 50, 2000]),
            period: (random.between(20, 10 * n as u64) * decim) as f64 / 10.0,
            at: 0,
            count: random.pick(&[1, 2, 3, 7, 52, 56, 63, 64]),
            change,
            time: random.pick(&[0, 1_000_000, u64::MAX - 20_000]),
        }
    }

    /// One more frame; `whole` says that no block is open.
    pub fn frame(&mut self, random: &mut Random, whole: bool) -> Frame {
        if self.change != 0 && whole && random.one_in(self.change) {
            self.count = random.below(65) as usize;
        }
        self.at += 1;
        self.time = self.time.wrapping_add(20_000);
        let entry = array::from_fn(|column| self.amplitude(random, column));
        let count = if random.one_in(50) { 0 } else { self.count };
        Frame {
            entry,
            count,
            time: self.time,
        }
    }

    fn amplitude(&self, random: &mut Random, column: usize) -> u16 {
        let base = f64::from(self.base[column]);
        let at = self.at as f64 / self.period;
        let wave = |turns: f64| (TAU * turns).sin();
        let value = match self.kind {
            Kind::Any => return random.word() as u16,
            Kind::Equal => return self.base[column],
            Kind::Extremes => {
                let high = (at * 2.0) as u64 % 2 == column as u64 % 2;
                return if high != random.one_in(16) { 65_535 } else { 0 };
            }
            Kind::Noise => base,
            Kind::Rhythm => base + self.swing[column] * wave(at),
            Kind::TwoRhythms => base + self.swing[column] * (wave(at) + 0.3 * wave(5.3 * at)),
            Kind::Ramp => base + self.swing[column] * at,
        };
        (value + random.below(self.jitter) as f64) as u16
    }
}

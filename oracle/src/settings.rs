//! The room's settings and their ranges (document 01).

use crate::detectors::{BLOCKS, WINDOWS};
use crate::radar::csi::Config;
use crate::radar::fall::FallConfig;
use crate::radar::phase::PhaseConfig;
use crate::radar::vitals::{Band, VitalsConfig};
use crate::random::Random;
use rusty_esp_core::Micros;

#[derive(Debug, Clone, Copy, PartialEq, Eq)]
pub struct Settings {
    /// Frames of a window, for presence and phase.
    pub w: u16,
    /// Block means, for breathing and heart.
    pub n: u16,
    pub presence: Config,
    pub phase: PhaseConfig,
    pub breathing: VitalsConfig,
    pub heart: VitalsConfig,
    pub fall: FallConfig,
}

impl Settings {
    /// Those of the program roomlines.
    pub fn roomlines() -> Self {
        Settings {
            w: 50,
            n: 128,
            presence: Config::normalised_default(),
            phase: PhaseConfig::default(),
            breathing: VitalsConfig::breathing(50),
            heart: VitalsConfig::heart(50),
            fall: FallConfig::normalised_default(),
        }
    }

    /// Settings in range, of the sizes the oracle is built for; the largest window seldom.
    pub fn random(random: &mut Random) -> Self {
        let (largest, others) = WINDOWS.split_last().unwrap();
        let w = if random.one_in(40) {
            *largest
        } else {
            random.pick(others)
        };
        Settings {
            w: w as u16,
            n: random.pick(BLOCKS) as u16,
            presence: Config {
                on_permille: threshold(random, 200) as u16,
                off_permille: threshold(random, 200) as u16,
                hold: duration(random),
            },
            phase: PhaseConfig {
                on_ppm: threshold(random, 4000) as u32,
                off_ppm: threshold(random, 4000) as u32,
                hold: duration(random),
            },
            breathing: rhythm(random),
            heart: rhythm(random),
            fall: falls(random),
        }
    }

    /// Settings with one range left.
    pub fn out_of_range(random: &mut Random) -> Self {
        let mut settings = Settings::random(random);
        let rhythms = [&mut settings.breathing, &mut settings.heart];
        let rhythm = rhythms.into_iter().nth(random.below(2) as usize).unwrap();
        match random.below(7) {
            0 => settings.w = random.pick(&[0, 8193, 65_535]),
            1 => settings.n = random.pick(&[0, 3, 513, 65_535]),
            2 => rhythm.decim = random.pick(&[32_768, 65_535]),
            3 => rhythm.rate_hz = random.pick(&[0, 1001, 65_536 + 10, u32::MAX]),
            4 | 5 => rhythm.band.lo_mhz = 0,
            _ => rhythm.band.hi_mhz = 0,
        }
        settings
    }

    /// Whether every named range is kept; if not, the refusal is 1.
    pub fn in_range(&self) -> bool {
        (1..=8192).contains(&self.w)
            && (4..=512).contains(&self.n)
            && [self.breathing, self.heart].iter().all(rhythm_in_range)
    }
}

/// The thresholds and the durations, in the order of `FallConfig`.
pub fn fall_config(permille: [u16; 3], times: [Micros; 5]) -> FallConfig {
    let [active_permille, burst_permille, still_permille] = permille;
    let [min_active, quiet_grace, settle, still_for, refractory] = times;
    FallConfig {
        active_permille,
        burst_permille,
        still_permille,
        min_active,
        quiet_grace,
        settle,
        still_for,
        refractory,
    }
}

/// The defaults; low thresholds and a few frames' time, by which many falls are suspected; or any.
fn falls(random: &mut Random) -> FallConfig {
    match random.below(3) {
        0 => FallConfig::normalised_default(),
        1 => fall_config(
            [60, 60, 80].map(|most| random.below(most) as u16),
            [(); 5].map(|()| Micros(random.below(4) * 20_000)),
        ),
        _ => fall_config(
            [100, 400, 100].map(|most| threshold(random, most) as u16),
            [(); 5].map(|()| duration(random)),
        ),
    }
}

/// Below `most`; now and then any.
fn threshold(random: &mut Random, most: u64) -> u64 {
    match random.below(12) {
        0 => random.word(),
        1 => random.pick(&[0, u64::MAX]),
        _ => random.below(most),
    }
}

/// None, a few seconds, or any.
fn duration(random: &mut Random) -> Micros {
    Micros(match random.below(8) {
        0 => 0,
        1 => random.word(),
        _ => random.any_size() % 10_000_000,
    })
}

/// Most often one that comes to an estimate within some hundred frames; now and then any.
fn rhythm(random: &mut Random) -> VitalsConfig {
    if random.one_in(8) {
        return any_rhythm(random);
    }
    let rate_hz = random.pick(&[1, 2, 10, 25, 100, 999, 1000]);
    // A band of lags from 2 to 150 or so.
    let shortest = random.between(1, 60) as u32;
    let longest = shortest + random.below(100) as u32;
    VitalsConfig {
        decim: random.pick(&[0, 1, 1, 1, 2, 2, 3, 5, 40, 32_767]),
        rate_hz,
        band: Band {
            lo_mhz: (rate_hz * 1000 / longest).max(1),
            hi_mhz: (rate_hz * 1000 / shortest).max(1),
        },
        update_every: random.pick(&[0, 1, 2, 10, 25, 65_535]),
        accept_permille: random.below(1001) as u16,
        highpass: random.pick(&[0, 0, 1, 2, 3, 24, 25, 511, 512, 65_535]),
    }
}

fn any_rhythm(random: &mut Random) -> VitalsConfig {
    let [lo_mhz, hi_mhz] = [random.any_size(), random.any_size()].map(|end| (end as u32).max(1));
    let any_block = random.below(32_768) as u16;
    VitalsConfig {
        decim: random.pick(&[0, 1, 2, 10, any_block]),
        rate_hz: random.between(1, 1000) as u32,
        band: Band { lo_mhz, hi_mhz },
        update_every: random.any_size() as u16,
        accept_permille: random.any_size() as u16,
        highpass: random.any_size() as u16,
    }
}

/// Whether breathing's or heart's ranges are kept.
pub fn rhythm_in_range(config: &VitalsConfig) -> bool {
    config.decim <= 32_767
        && (1..=1000).contains(&config.rate_hz)
        && config.band.lo_mhz >= 1
        && config.band.hi_mhz >= 1
}

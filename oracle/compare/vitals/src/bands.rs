//! Lags of bands, and the settings of both presets.

use oracle::differ::Differ;
use oracle::radar::vitals::{self, VitalsConfig};
use oracle::random::Random;

use crate::calls::{self, Band, Covered};

/// Lags that are known, then lags of random bands, refused where a number is out of range.
pub fn lags(differ: &mut Differ, random: &mut Random, rounds: u64) {
    let known = [
        ((150, 550), 10, (18, 67)),
        ((700, 2200), 25, (11, 36)),
        ((1, u32::MAX), 1, (2, 1000)),
        ((1, 1), 1000, (1_000_000, 1_000_000)),
    ];
    for ((lo_mhz, hi_mhz), rate_hz, lags) in known {
        compare(differ, Band { lo_mhz, hi_mhz }, rate_hz, Some(lags));
    }
    for _ in 0..rounds * 2_000 {
        let rate_hz = match random.below(3) {
            0 => random.pick(&[0, 1, 2, 999, 1000, 1001, u32::MAX]),
            _ => random.between(1, 1000) as u32,
        };
        let band = Band {
            lo_mhz: random.any_size() as u32,
            hi_mhz: random.any_size() as u32,
        };
        let legal = (1..=1000).contains(&rate_hz) && band.lo_mhz.min(band.hi_mhz) > 0;
        let lags = legal.then(|| vitals::Band::from(band).lags(rate_hz));
        compare(differ, band, rate_hz, lags);
    }
}

/// These lags, or a refusal.
fn compare(differ: &mut Differ, band: Band, rate_hz: u32, lags: Option<(usize, usize)>) {
    let (lo, hi) = lags.unwrap_or_default();
    let due = Covered {
        refusal: u8::from(lags.is_none()),
        lo,
        hi,
    };
    let input = ("lags", band, rate_hz);
    differ.compare(&input, &due, &calls::lags(band, rate_hz));
}

pub fn presets(differ: &mut Differ, random: &mut Random, rounds: u64) {
    for _ in 0..rounds * 500 {
        let hz = random.any_size() as u32;
        let ours = calls::breathing(hz).into();
        differ.compare(&("breathing", hz), &VitalsConfig::breathing(hz), &ours);
        let ours = calls::heart(hz).into();
        differ.compare(&("heart", hz), &VitalsConfig::heart(hz), &ours);
    }
}

//! All numbers have the low byte first. A case of 12 bytes is a band and a rate of four bytes each: lowest and highest
//! rate, then the samples a second. Its line is `lags LO HI`. A case of 22 bytes is a new estimator: N and `decim` in two
//! bytes, `rate_hz` and the band in four each, then `update_every`, `accept_permille` and `highpass` in two. Its line is
//! `new`. No bytes are a reset, with the line `reset`. A case of odd length is a frame: its time in four bytes, its count
//! in one, its amplitudes in two each. Its line is `-`, or if an estimate is due `estimate RATE CONFIDENCE LAG TIME`, and
//! ` accepted`. What document 01 refuses has the line `refused NUMBER` instead.

use std::f64::consts::TAU;

use oracle::Micros;
use oracle::detectors::{self, Rhythm};
use oracle::frames::Frame;
use oracle::layout::rhythm_to_bytes;
use oracle::radar::vitals::{Band, VitalsConfig};
use oracle::random::Random;

use super::Cases;

pub fn cases() -> Cases {
    let random = &mut Random::new(1);
    let mut cases = Cases::default();
    all_lags(&mut cases, random);
    refused(&mut cases);
    // Breathing of 15 and a heart of 72 a minute, each at rest and with more noise.
    let (breathing, heart) = (VitalsConfig::breathing(50), VitalsConfig::heart(50));
    for (config, hz, swing) in [
        (breathing, 0.25, 40.0),
        (breathing, 0.25, 2.0),
        (heart, 1.2, 40.0),
    ] {
        let mut run = Run::new(&mut cases, 128, config);
        for i in 0..128 * u32::from(config.decim) + 100 {
            let body = swing * (TAU * hz * f64::from(i) / 50.0).sin();
            let amplitude = |random: &mut Random| (1024.0 + body) as u16 + random.below(9) as u16;
            run.frame(i, &[amplitude(random), amplitude(random)]);
        }
    }
    for _ in 0..40 {
        let n = random.pick(&[4, 5, 8, 16, 16, 64]);
        let mut run = Run::new(&mut cases, n, config(random));
        random_frames(&mut run, random);
    }
    cases
}

/// The lags of document 01, and of random bands.
fn all_lags(cases: &mut Cases, random: &mut Random) {
    lags(cases, Band::BREATHING, 10);
    lags(cases, Band::HEART, 25);
    for rate_hz in [0, 1, 1000, 1001] {
        for (lo_mhz, hi_mhz) in [(0, 1), (1, 0), (1, 1), (1, u32::MAX), (u32::MAX, 1)] {
            lags(cases, Band { lo_mhz, hi_mhz }, rate_hz);
        }
    }
    for _ in 0..60 {
        let band = Band {
            lo_mhz: random.any_size() as u32,
            hi_mhz: random.any_size() as u32,
        };
        lags(cases, band, random.between(1, 1000) as u32);
    }
}

fn lags(cases: &mut Cases, band: Band, rate_hz: u32) {
    let numbers = [band.lo_mhz, band.hi_mhz, rate_hz];
    let input: Vec<u8> = numbers.iter().flat_map(|x| x.to_le_bytes()).collect();
    if !(1..=1000).contains(&rate_hz) || band.lo_mhz == 0 || band.hi_mhz == 0 {
        return cases.add(&input, "refused 1");
    }
    let (lo, hi) = band.lags(rate_hz);
    cases.add(&input, &format!("lags {lo} {hi}"));
}

/// Settings and a frame that are out of range.
fn refused(cases: &mut Cases) {
    let good = VitalsConfig::breathing(50);
    let none = Band {
        lo_mhz: 0,
        hi_mhz: 0,
    };
    for (n, decim, rate_hz, band) in [
        (0, 5, 10, good.band),
        (3, 5, 10, good.band),
        (513, 5, 10, good.band),
        (8, 32_768, 10, good.band),
        (8, 5, 0, good.band),
        (8, 5, 1001, good.band),
        (8, 5, 10, none),
    ] {
        let config = VitalsConfig {
            decim,
            rate_hz,
            band,
            ..good
        };
        cases.add(&settings(n, config), "refused 1");
    }
    cases.add(&settings(8, good), "new");
    let mut frame = vec![0, 0, 0, 0, 65];
    frame.extend([0; 130]);
    cases.add(&frame, "refused 7");
}

fn settings(n: u16, config: VitalsConfig) -> Vec<u8> {
    [&n.to_le_bytes(), &rhythm_to_bytes(&config)[..]].concat()
}

/// Bands about the first lags, wide, narrow and inverted.
fn config(random: &mut Random) -> VitalsConfig {
    let rate_hz = random.pick(&[1, 10, 25, 1000]);
    let first = random.between(1, 6);
    let last = match random.below(6) {
        0 => random.between(1, 8),
        1 => random.between(120, 135),
        _ => first + random.between(2, 30),
    };
    let rate = |lag: u64| (rate_hz * 1000 / lag as u32).max(1);
    VitalsConfig {
        decim: random.pick(&[0, 1, 1, 1, 2, 3]),
        rate_hz,
        band: Band {
            lo_mhz: rate(last),
            hi_mhz: rate(first),
        },
        update_every: random.pick(&[0, 1, 2, 5]),
        accept_permille: random.pick(&[0, 400, 400, 900, 1001]),
        highpass: random.pick(&[0, 0, 1, 2, 3, 6, 7, 15, 16, 17, 65_535]),
    }
}

/// Rhythms and noise, of which some means are above 32,767; the count changes where no block is open.
fn random_frames(run: &mut Run, random: &mut Random) {
    let decim = u64::from(run.config.decim.max(1));
    let period = (random.between(20, 120) * decim) as f64 / 10.0;
    let base = random.pick(&[1024.0, 1024.0, 32_760.0, 60_000.0]);
    let swing = random.pick(&[0.0, 5.0, 200.0, 30_000.0]);
    let jitter = random.pick(&[1, 4, 100]);
    let mut count = random.pick(&[1, 2, 3]);
    for i in 0..(3 * run.n as u64 / 2 + 6) * decim {
        if i % decim == 0 && random.one_in(3 * run.n as u64) {
            count = random.between(1, 4);
        }
        if i % decim == 0 && random.one_in(8 * run.n as u64) {
            run.reset();
        }
        let body = swing * (TAU * i as f64 / period).sin();
        let noise: Vec<u64> = (0..count).map(|_| random.below(jitter)).collect();
        let amplitudes = noise.iter().map(|&x| (base + body) as u16 ^ x as u16);
        run.frame(i as u32, &amplitudes.collect::<Vec<u16>>());
    }
}

/// One estimator and the cases that it writes.
struct Run<'a> {
    cases: &'a mut Cases,
    n: usize,
    config: VitalsConfig,
    rhythm: Box<dyn Rhythm>,
}

impl<'a> Run<'a> {
    fn new(cases: &'a mut Cases, n: usize, config: VitalsConfig) -> Self {
        cases.add(&settings(n as u16, config), "new");
        Run {
            cases,
            n,
            config,
            rhythm: detectors::rhythm(n, config),
        }
    }

    fn reset(&mut self) {
        self.rhythm.reset();
        self.cases.add(&[], "reset");
    }

    fn frame(&mut self, time: u32, amplitudes: &[u16]) {
        let features = Frame::of(amplitudes, 0).features();
        let mut input = time.to_le_bytes().to_vec();
        input.push(features.count);
        input.extend(amplitudes.iter().flat_map(|a| a.to_le_bytes()));
        let line = match self.rhythm.push(&features, Micros(time.into())) {
            None => "-".to_string(),
            Some(v) => {
                let accepted = if v.accepted { " accepted" } else { "" };
                let (rate, lag) = (v.bpm_x10, v.lag_x16);
                format!(
                    "estimate {rate} {} {lag} {}{accepted}",
                    v.confidence, v.at.0
                )
            }
        };
        self.cases.add(&input, &line);
    }
}

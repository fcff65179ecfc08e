//! A case is a baseline and a frame: sum (eight bytes) and frames (four), count (one) and variance
//! (four), low byte first. Its line is `mean ANSWER distance ANSWER calibrated ANSWER`; an answer is
//! a number, the next sum and frames, or `refused NUMBER`.

use oracle::measured::of_variance;
use oracle::radar::csi::MAX_SUBCARRIERS;
use oracle::radar::fingerprint::Baseline;
use oracle::random::Random;

use super::Cases;

const MAX_FRAMES: u32 = 65_535;

/// The Rust's baseline, with its sum beside it.
struct Fed {
    rust: Baseline,
    sum: u64,
}

pub fn cases() -> Cases {
    let random = &mut Random::new(1);
    let mut cases = Cases::default();
    bench(&mut cases);
    for _ in 0..20 {
        list(&mut cases, random);
    }
    for variance in [0, 7, u32::MAX] {
        to_the_limit(&mut cases, variance);
    }
    out_of_range(&mut cases);
    cases
}

/// Variances 100, 101, then 150, with frames between them that do not count.
fn bench(cases: &mut Cases) {
    let mut fed = Fed::new();
    for (count, variance) in [(64, 100), (0, 9), (65, 9), (64, 101), (255, 9), (1, 150)] {
        fed.step(cases, count, variance);
    }
    let mut fed = Fed::new();
    for (count, variance) in [(1, 0), (1, 5), (1, 0), (1, 1), (64, u32::MAX), (64, 1)] {
        fed.step(cases, count, variance);
    }
}

fn list(cases: &mut Cases, random: &mut Random) {
    let mut fed = Fed::new();
    let bits = random.between(1, 32);
    for _ in 0..12 {
        let count = match random.below(8) {
            0 => random.byte(),
            _ => random.between(1, 64) as u8,
        };
        fed.step(cases, count, (random.word() & ((1 << bits) - 1)) as u32);
    }
}

/// The last frame that is calibrated, and those after it.
fn to_the_limit(cases: &mut Cases, variance: u32) {
    let mut fed = Fed::new();
    for _ in 0..MAX_FRAMES - 2 {
        fed.calibrate(64, variance);
    }
    for count in [64, 0, 1, 64, 0, 65] {
        fed.step(cases, count, variance);
        fed.step(cases, 0, variance / 2 + 1);
    }
}

/// Baselines that document 01 refuses, and frames that would be refused too.
fn out_of_range(cases: &mut Cases) {
    let most = u64::from(MAX_FRAMES) * u64::from(u32::MAX);
    for (sum, frames) in [
        (1, 0),
        (0, MAX_FRAMES + 1),
        (0, u32::MAX),
        (u64::MAX, 0),
        (most + 1, MAX_FRAMES),
        (u64::from(u32::MAX) + 1, 1),
    ] {
        for count in [0, 1, 64, 65] {
            let answer = "mean refused 2 distance refused 2 calibrated refused 2";
            cases.add(&input(sum, frames, count, 9), answer);
        }
    }
}

fn input(sum: u64, frames: u32, count: u8, variance: u32) -> Vec<u8> {
    let mut bytes = sum.to_le_bytes().to_vec();
    bytes.extend(frames.to_le_bytes());
    bytes.push(count);
    bytes.extend(variance.to_le_bytes());
    bytes
}

impl Fed {
    fn new() -> Self {
        Fed {
            rust: Baseline::new(),
            sum: 0,
        }
    }

    fn calibrate(&mut self, count: u8, variance: u32) {
        self.rust.calibrate(&of_variance(count, variance));
        if count != 0 {
            self.sum += u64::from(variance);
        }
    }

    /// Records the answers to one frame, and feeds it if document 01 does not refuse it.
    fn step(&mut self, cases: &mut Cases, count: u8, variance: u32) {
        let input = input(self.sum, self.rust.frames(), count, variance);
        let mean = self.rust.mean();
        let answer = if usize::from(count) > MAX_SUBCARRIERS {
            "distance refused 7 calibrated refused 7".into()
        } else {
            let distance = self.rust.distance(&of_variance(count, variance));
            if count != 0 && self.rust.frames() == MAX_FRAMES {
                format!("distance {distance} calibrated refused 8")
            } else {
                self.calibrate(count, variance);
                let frames = self.rust.frames();
                format!("distance {distance} calibrated {} {frames}", self.sum)
            }
        };
        cases.add(&input, &format!("mean {mean} {answer}"));
    }
}

//! The baseline against the Rust: `compare_fingerprint [seed] [random lists]`.

use std::process::ExitCode;

use oracle::argument;
use oracle::differ::{self, Differ};
use oracle::measured::{Exported, of_variance};
use oracle::radar::csi::{Features, MAX_SUBCARRIERS};
use oracle::radar::fingerprint::Baseline;
use oracle::random::Random;
use oracle::refusals::{COUNT, FULL, MEMORY};
use oracle::timer::ratio_over;

#[repr(C)]
#[derive(Debug, Clone, Copy, PartialEq)]
struct Ours {
    sum: u64,
    frames: u32,
}

#[repr(C)]
struct Next {
    refusal: u8,
    baseline: Ours,
}

#[repr(C)]
struct Number {
    refusal: u8,
    value: u32,
}

unsafe extern "C" {
    fn fingerprint_calibrate(b: Ours, f: Exported) -> Next;
    fn fingerprint_mean(b: Ours) -> Number;
    fn fingerprint_distance(b: Ours, f: Exported) -> Number;
}

/// The most frames.
const MAX_FRAMES: u32 = 65_535;

const NEW: Ours = Ours { sum: 0, frames: 0 };

/// A frame's features as far as a baseline reads them.
#[derive(Debug, Clone, Copy)]
struct Of {
    count: u8,
    variance: u32,
}

impl Of {
    fn rust(self) -> Features {
        of_variance(self.count, self.variance)
    }

    fn ours(self) -> Exported {
        self.rust().into()
    }

    /// Document 01's refusal of the count alone.
    fn refusal(self) -> u8 {
        if usize::from(self.count) > MAX_SUBCARRIERS {
            COUNT
        } else {
            0
        }
    }
}

/// The two baselines, fed alike; the sum of the Rust's is kept beside it.
struct Pair {
    rust: Baseline,
    sum: u64,
    ours: Ours,
}

impl Pair {
    fn new() -> Self {
        Pair {
            rust: Baseline::new(),
            sum: 0,
            ours: NEW,
        }
    }

    /// Feeds one frame to both, and compares the refusal, the state and the mean.
    fn feed(&mut self, differ: &mut Differ, of: Of) {
        let mut refusal = of.refusal();
        if refusal == 0 && of.count != 0 && self.rust.frames() == MAX_FRAMES {
            refusal = FULL;
        }
        if refusal == 0 {
            let frames = self.rust.frames();
            self.rust.calibrate(&of.rust());
            if self.rust.frames() != frames {
                self.sum += u64::from(of.variance);
            }
        }
        let next = unsafe { fingerprint_calibrate(self.ours, of.ours()) };
        self.ours = next.baseline;
        let state = Ours {
            sum: self.sum,
            frames: self.rust.frames(),
        };
        let mean = unsafe { fingerprint_mean(self.ours) };
        differ.compare(
            &of,
            &(refusal, state, 0, self.rust.mean()),
            &(next.refusal, next.baseline, mean.refusal, mean.value),
        );
    }

    fn distance(&self, differ: &mut Differ, of: Of) {
        let rust = match of.refusal() {
            0 => (0, u32::from(self.rust.distance(&of.rust()))),
            refusal => (refusal, 0),
        };
        let ours = unsafe { fingerprint_distance(self.ours, of.ours()) };
        differ.compare(&(self.ours, of), &rust, &(ours.refusal, ours.value));
    }
}

fn random_frame(random: &mut Random) -> Of {
    Of {
        count: match random.below(16) {
            0 => 0,
            1 => random.between(65, 255) as u8,
            _ => random.between(1, 64) as u8,
        },
        variance: random.any_size() as u32,
    }
}

/// Every count once, on a new baseline and on a calibrated one.
fn every_count(differ: &mut Differ) {
    for count in 0..=255 {
        for variance in [0, 1, 1000, u32::MAX] {
            let of = Of { count, variance };
            let mut pair = Pair::new();
            pair.distance(differ, of);
            pair.feed(differ, of);
            pair.distance(
                differ,
                Of {
                    count: 1,
                    variance: 500,
                },
            );
            pair.distance(differ, of);
            pair.feed(
                differ,
                Of {
                    count: 64,
                    variance: 100,
                },
            );
            pair.feed(differ, of);
        }
    }
}

/// Up to the last frame that is calibrated, and past it.
fn to_the_limit(differ: &mut Differ, random: &mut Random, variance: Option<u32>) {
    let mut pair = Pair::new();
    for _ in 0..MAX_FRAMES {
        let next = variance.unwrap_or_else(|| random.word() as u32);
        pair.feed(
            differ,
            Of {
                count: 64,
                variance: next,
            },
        );
    }
    for count in [1, 64, 0, 65, 255] {
        pair.feed(differ, Of { count, variance: 7 });
    }
    for _ in 0..1000 {
        pair.distance(differ, random_frame(random));
    }
}

/// A random list of frames, with distances between them.
fn random_list(differ: &mut Differ, random: &mut Random) {
    let mut pair = Pair::new();
    let near = random.any_size() as u32;
    for _ in 0..random.below(40) {
        let mut of = random_frame(random);
        if random.one_in(2) {
            of.variance = near.wrapping_add(random.below(9) as u32);
        }
        match random.below(3) {
            0 => pair.feed(differ, of),
            _ => pair.distance(differ, of),
        }
    }
}

/// Baselines out of range are refused whatever the frame; those on the edge are not.
fn out_of_range(differ: &mut Differ, random: &mut Random) {
    for _ in 0..100_000 {
        let frames = match random.below(4) {
            0 => random.pick(&[0, 1, 65_534, 65_535, 65_536, u32::MAX]),
            _ => random.any_size() as u32,
        };
        let most = u64::from(frames) * u64::from(u32::MAX);
        let sum = match random.below(4) {
            0 => most,
            1 => most.saturating_add(1),
            2 => most.saturating_sub(random.below(3)),
            _ => random.any_size(),
        };
        let b = Ours { sum, frames };
        let of = random_frame(random);
        let bad = frames > MAX_FRAMES || sum > most;
        let refusal = if bad { MEMORY } else { of.refusal() };
        let full = refusal == 0 && of.count != 0 && frames == MAX_FRAMES;
        let next = unsafe { fingerprint_calibrate(b, of.ours()) };
        let distance = unsafe { fingerprint_distance(b, of.ours()) };
        let mean = unsafe { fingerprint_mean(b) };
        differ.compare(
            &(b, of),
            &(
                if full { FULL } else { refusal },
                refusal,
                if bad { MEMORY } else { 0 },
            ),
            &(next.refusal, distance.refusal, mean.refusal),
        );
        if next.refusal != 0 {
            differ.compare(&(b, of), &b, &next.baseline);
        }
    }
}

/// Prints the times of calibrating a list of frames and of distances as ratios to the Rust's.
fn measure(random: &mut Random) {
    let frames: Vec<(Features, Exported)> = (0..10_000)
        .map(|_| Of {
            count: 56,
            variance: random.below(400_000) as u32,
        })
        .map(|of| (of.rust(), of.ours()))
        .collect();
    let (mut rust, mut ours) = (Baseline::new(), NEW);
    let calibrate = ratio_over(
        &frames,
        |(f, _)| {
            if rust.frames() == MAX_FRAMES {
                rust = Baseline::new();
            }
            rust.calibrate(f);
        },
        |(_, f)| {
            if ours.frames == MAX_FRAMES {
                ours = NEW;
            }
            ours = unsafe { fingerprint_calibrate(ours, *f) }.baseline;
        },
    );
    println!("calibrate: {calibrate}");
    let distance = ratio_over(
        &frames,
        |(f, _)| rust.distance(f),
        |(_, f)| unsafe { fingerprint_distance(ours, *f) }.value,
    );
    println!("distance: {distance}");
}

fn main() -> ExitCode {
    differ::compare("fingerprint", |differ, random| {
        every_count(differ);
        to_the_limit(differ, random, Some(u32::MAX));
        to_the_limit(differ, random, Some(0));
        to_the_limit(differ, random, None);
        for _ in 0..argument(2, 100_000) {
            random_list(differ, random);
        }
        out_of_range(differ, random);
        measure(random);
    })
}

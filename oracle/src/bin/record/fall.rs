//! A case of 46 bytes is a new machine: three thresholds of two bytes, then five durations of eight, in the order
//! of `FallConfig`. Its line is `new`. A case of 10 bytes is a frame: the wander in two bytes, the time in eight.
//! All have the low byte first. A frame has its line twice, for the machine by value and for the one that is lent:
//! `frame WANDER TIME STATE`, the state with the numbers that it holds, and of an event ` fall` and its four numbers.

use oracle::Micros;
use oracle::layout::fall_to_bytes;
use oracle::radar::fall::{FallConfig, FallDetector};
use oracle::random::Random;
use oracle::settings::fall_config;

use super::Cases;

/// Wander and time of each frame.
type Frames = Vec<(u16, u64)>;

pub fn cases() -> Cases {
    let random = &mut Random::new(1);
    let mut cases = Cases::default();
    let default = FallConfig::normalised_default();
    for frames in [thresholds(), fall(), no_fall(), clock()] {
        sequence(&mut cases, default, &frames);
    }
    // Random sequences, of which those without a fall are passed over.
    let mut left = 24;
    while left > 0 {
        let config = random_config(random);
        let frames = random_frames(random, &config);
        if falls(config, &frames) > 0 {
            sequence(&mut cases, config, &frames);
            left -= 1;
        }
    }
    cases
}

fn falls(config: FallConfig, frames: &Frames) -> u32 {
    let mut detector = FallDetector::new(config);
    for &(wander, now) in frames {
        detector.push(wander, Micros(now));
    }
    detector.events()
}

/// Walking that is no burst: 31 is not yet active, and 232 comes before two seconds of motion; then quiet for less
/// than three seconds, not quiet, and quiet for three.
fn thresholds() -> Frames {
    vec![
        (30, 0),
        (31, 1_000_000),
        (32, 2_000_000),
        (232, 3_999_999),
        (30, 4_000_000),
        (30, 6_999_999),
        (31, 7_000_000),
        (30, 8_000_000),
        (30, 10_999_999),
        (30, 11_000_000),
        (0, 12_000_000),
    ]
}

/// Motion for exactly two seconds, a burst, then these.
fn after_a_burst(frames: &[(u16, u64)]) -> Frames {
    [&[(32, 0), (231, 2_000_000), (232, 2_000_000)], frames].concat()
}

/// Still at exactly ten seconds; the frame that ends the refractory time starts nothing, the next one does.
fn fall() -> Frames {
    after_a_burst(&[
        (400, 2_500_000),
        (100, 3_000_000),
        (30, 4_000_000),
        (31, 5_000_000),
        (30, 13_999_999),
        (31, 14_000_000),
        (30, 14_000_000),
        (500, 73_999_999),
        (500, 74_000_000),
        (500, 74_000_001),
    ])
}

/// A burst is left after strictly more than three seconds; a settling body gets up.
fn no_fall() -> Frames {
    after_a_burst(&[
        (100, 5_000_000),
        (100, 5_000_001),
        (232, 7_000_001),
        (0, 7_000_002),
        (32, 7_000_003),
    ])
}

/// A clock that went back counts as no time; the refractory time ends no later than the last time.
fn clock() -> Frames {
    after_a_burst(&[
        (0, 1_000_000),
        (0, 0),
        (0, u64::MAX - 1),
        (500, u64::MAX - 1),
        (500, u64::MAX),
        (500, 0),
    ])
}

fn random_config(random: &mut Random) -> FallConfig {
    let times = [(); 5].map(|()| match random.below(8) {
        0 => random.pick(&[0, u64::MAX]),
        _ => random.below(6),
    });
    let permille = [(10, 40), (30, 60), (10, 40)].map(|(lo, hi)| random.between(lo, hi) as u16);
    fall_config(permille, times.map(Micros))
}

/// Wanders about the thresholds, on a clock that mostly goes on.
fn random_frames(random: &mut Random, c: &FallConfig) -> Frames {
    let around = [c.active_permille, c.burst_permille, c.still_permille, 0];
    let mut now = random.pick(&[0, 1_000_000_000_000, u64::MAX - 20]);
    (0..24)
        .map(|_| {
            now = match random.below(24) {
                0 => now.saturating_sub(5),
                _ => now.saturating_add(random.below(4)),
            };
            let wander = random.pick(&around);
            (wander + random.below(2) as u16, now)
        })
        .collect()
}

fn sequence(cases: &mut Cases, config: FallConfig, frames: &Frames) {
    cases.add(&fall_to_bytes(&config), "new");
    let mut detector = FallDetector::new(config);
    for &(wander, now) in frames {
        let event = detector.push(wander, Micros(now));
        let mut line = format!("frame {wander} {now} {}", state(&detector));
        if let Some(e) = event {
            let (burst, peak, still) = (e.burst_at.0, e.peak_permille, e.still_since.0);
            line += &format!(" fall {burst} {peak} {still} {}", e.at.0);
        }
        let mut frame = wander.to_le_bytes().to_vec();
        frame.extend(now.to_le_bytes());
        cases.add(&frame, &format!("{line}\n{line}"));
    }
}

/// The private state, read from how the Rust prints it: its name and its numbers.
fn state(detector: &FallDetector) -> String {
    let text = format!("{detector:?}");
    let (_, phase) = text.split_once("phase: ").unwrap();
    let (phase, _) = phase.split_once(", events").unwrap();
    let name: String = phase.chars().take_while(|c| c.is_alphabetic()).collect();
    let numbers = phase.split(|c: char| !c.is_ascii_digit());
    let words = numbers.filter(|word| !word.is_empty());
    words.fold(name.to_lowercase(), |line, word| line + " " + word)
}

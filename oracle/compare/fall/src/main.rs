//! The fall machine against the Rust: `compare_fall [seed] [random sequences] [timed frames]`.

mod calls;
mod state;

use std::fmt::Debug;
use std::process::ExitCode;

use calls::{Pushed, Said, Words, push};
use oracle::differ::{self, Differ};
use oracle::falls::Config;
use oracle::radar::fall::{FallConfig, FallDetector};
use oracle::random::Random;
use oracle::refusals::MEMORY;
use oracle::settings::fall_config;
use oracle::{Micros, argument, timer};
use state::{legal, shown};

/// Both machines after the same frames.
#[derive(Clone)]
struct Pair {
    config: Config,
    rust: FallDetector,
    ours: Words,
}

impl Pair {
    fn new(config: Config) -> Pair {
        Pair {
            config,
            rust: FallDetector::new(config.rust()),
            ours: Words::default(),
        }
    }

    /// One frame: what it says, and whether a burst is pending.
    fn push(&mut self, differ: &mut Differ, input: &dyn Debug, wander: u16, now: u64) {
        let rust = Said::of(self.rust.push(wander, Micros(now)));
        let ours = push(self.config, self.ours, wander, now);
        self.ours = ours.words;
        let pending = matches!(self.ours.tag, 3 | 4);
        differ.compare(
            &(input, self.config, wander, now),
            &(rust, self.rust.pending()),
            &(ours.said, pending),
        );
    }

    /// The whole state.
    fn compare_state(&self, differ: &mut Differ, input: &dyn Debug) {
        let ours = shown(self.config.rust(), &self.ours, self.rust.events());
        differ.compare(input, &format!("{:?}", self.rust), &ours);
    }
}

/// Thresholds 30, 32, 232 as in the defaults, with limits that a few short steps reach.
const SHORT: Config = Config {
    active_permille: 32,
    burst_permille: 232,
    still_permille: 30,
    min_active: 2,
    quiet_grace: 3,
    settle: 2,
    still_for: 3,
    refractory: 4,
};

/// Below, at and above each threshold.
const WANDERS: [u16; 6] = [30, 31, 32, 231, 232, 233];

const LENGTH: usize = 7;

/// States are compared whole to this depth.
const WHOLE: usize = 4;

/// All sequences of the wander values and clock steps, depth first.
fn every_sequence(
    differ: &mut Differ,
    pair: &Pair,
    steps: &[i64],
    now: u64,
    path: &mut Vec<(u16, u64)>,
) {
    if path.len() == LENGTH {
        return;
    }
    for step in steps {
        for wander in WANDERS {
            let then = now.wrapping_add_signed(*step);
            let mut next = pair.clone();
            next.push(differ, path, wander, then);
            path.push((wander, then));
            if path.len() <= WHOLE {
                next.compare_state(differ, path);
            }
            every_sequence(differ, &next, steps, then, path);
            path.pop();
        }
    }
}

/// All sequences of the wander values with the defaults, on clocks that step by the limits or nearly so.
fn every_wander(differ: &mut Differ, random: &mut Random) {
    let config = Config::of(&FallConfig::normalised_default());
    let limits = [
        config.min_active,
        config.quiet_grace,
        config.still_for,
        config.refractory,
    ];
    let mut steps: Vec<i64> = vec![0, 1, -1, -5_000_000, 20_000];
    for limit in limits {
        steps.extend([-1, 0, 1].map(|by| limit as i64 + by));
    }
    let mut clocks: Vec<[u64; LENGTH]> = Vec::new();
    for start in [0, u64::MAX - 30_000_000] {
        for step in &steps {
            clocks.push(clock(start, || *step));
        }
        for _ in 0..40 {
            clocks.push(clock(start, || random.pick(&steps)));
        }
    }
    for times in &clocks {
        one_clock(differ, &Pair::new(config), times, &mut Vec::new());
    }
}

fn clock(start: u64, mut step: impl FnMut() -> i64) -> [u64; LENGTH] {
    let mut now = start;
    [(); LENGTH].map(|()| {
        let at = now;
        now = now.wrapping_add_signed(step());
        at
    })
}

fn one_clock(differ: &mut Differ, pair: &Pair, times: &[u64; LENGTH], path: &mut Vec<(u16, u64)>) {
    let Some(&now) = times.get(path.len()) else {
        return;
    };
    for wander in WANDERS {
        let mut next = pair.clone();
        next.push(differ, path, wander, now);
        path.push((wander, now));
        one_clock(differ, &next, times, path);
        path.pop();
    }
}

fn random_config(random: &mut Random) -> Config {
    let permille = [(); 3].map(|()| match random.below(4) {
        0 => random.pick(&[0, 1, u16::MAX - 1, u16::MAX]),
        _ => random.below(300) as u16,
    });
    let times = [(); 5].map(|()| match random.below(8) {
        0 => random.pick(&[0, 1, u64::MAX - 1, u64::MAX]),
        1 => random.any_size(),
        _ => random.below(20),
    });
    Config::of(&fall_config(permille, times.map(Micros)))
}

/// A long sequence: wanders about the thresholds, a clock that mostly goes on.
fn one_random(differ: &mut Differ, random: &mut Random) {
    let config = match random.below(4) {
        0 => SHORT,
        _ => random_config(random),
    };
    let around = [
        config.active_permille,
        config.burst_permille,
        config.still_permille,
    ];
    let mut pair = Pair::new(config);
    let mut now = random.pick(&[0, 1000, u64::MAX - 200]);
    for i in 0..random.between(1, 400) {
        now = match random.below(64) {
            0 => random.any_size(),
            1 => u64::MAX - random.below(5),
            2 | 3 => now.wrapping_sub(random.below(30)),
            _ => now.saturating_add(random.below(8)),
        };
        let wander = match random.below(8) {
            0 => random.word() as u16,
            _ => random
                .pick(&around)
                .wrapping_add_signed(random.below(3) as i16 - 1),
        };
        pair.push(differ, &i, wander, now);
        if random.one_in(16) {
            pair.compare_state(differ, &(config, i, wander, now));
        }
    }
    pair.compare_state(differ, &config);
}

/// Words of every tag, with and without what the tag does not use: those of no state are refused with 2 and come
/// back as they were; of the others the words after a frame are taken again.
fn every_tag(differ: &mut Differ, random: &mut Random) {
    for tag in 0..=255 {
        for _ in 0..64 {
            let mut maybe = |n: u64| if random.one_in(2) { 0 } else { n };
            let words = Words {
                tag,
                peak: maybe(7) as u16,
                a: maybe(5),
                b: maybe(1 << 40),
            };
            let config = random_config(random);
            let (wander, now) = (random.word() as u16, random.any_size());
            let pushed = push(config, words, wander, now);
            let refusal = if legal(&words) { 0 } else { MEMORY };
            let refused = Said {
                refusal,
                ..Said::default()
            };
            let due = match refusal {
                0 => pushed,
                _ => Pushed {
                    words,
                    said: refused,
                },
            };
            let input = (config, words);
            let ours = (pushed.said.refusal, pushed);
            differ.compare(&input, &(refusal, due), &ours);
            if refusal == 0 {
                let again = push(config, pushed.words, wander, now);
                differ.compare(&input, &0, &again.said.refusal);
            }
        }
    }
}

/// Frames of a day in a room, fifty a second: walks, falls and rest.
fn day(random: &mut Random, frames: u64) -> (Vec<u16>, Vec<u64>) {
    let (mut wanders, mut times) = (Vec::new(), Vec::new());
    let mut level = 20;
    for i in 0..frames {
        if random.one_in(200) {
            level = random.pick(&[10, 20, 25, 40, 100, 160, 240]);
        }
        wanders.push((level + random.below(12)) as u16);
        times.push(i * 20_000);
    }
    (wanders, times)
}

fn pace(random: &mut Random, frames: u64) {
    let config = FallConfig::normalised_default();
    let ours = Config::of(&config);
    let (wanders, times) = day(random, frames);
    let (mut rust_falls, mut our_falls) = (0, 0);
    let ratio = timer::ratio(
        41,
        || {
            let mut detector = FallDetector::new(config);
            for (wander, now) in wanders.iter().zip(&times) {
                rust_falls += u64::from(detector.push(*wander, Micros(*now)).is_some());
            }
        },
        || {
            let mut words = Words::default();
            for (wander, now) in wanders.iter().zip(&times) {
                let pushed = push(ours, words, *wander, *now);
                words = pushed.words;
                our_falls += u64::from(pushed.said.fall);
            }
        },
    );
    assert_eq!(rust_falls, our_falls);
    println!("fall: {frames} frames, {} falls, {ratio}", our_falls / 42);
}

fn main() -> ExitCode {
    differ::compare("fall", |differ, random| {
        for (start, steps) in [
            (0, [1, 2]),
            (0, [0, 3]),
            (9, [2, -1]),
            (u64::MAX - 6, [1, 2]),
        ] {
            every_sequence(differ, &Pair::new(SHORT), &steps, start, &mut Vec::new());
        }
        every_wander(differ, random);
        every_tag(differ, random);
        for _ in 0..argument(2, 50_000) {
            one_random(differ, random);
        }
        pace(random, argument(3, 1_000_000));
    })
}

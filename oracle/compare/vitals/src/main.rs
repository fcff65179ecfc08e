//! Breathing and heart against the Rust: `compare_vitals [seed] [rounds]`.
//!
//! Frames go through `vitals_push` one by one; settings, states, totals and
//! memory that do not fit are refused by document 01's numbers and leave everything as it was.
//! A restart that meets an open block empties it; the Rust keeps its totals there, so ours is then
//! held to a new one of the Rust's.

mod bands;
mod calls;
mod inputs;
mod pace;
mod refusals;
mod theirs;

use std::fmt;
use std::process::ExitCode;

use calls::{Band, Begun, Config, Frame, NEW, Ours, Vitals};
use inputs::{Source, config};
use oracle::detectors::BLOCKS;
use oracle::differ::{self, Differ};
use oracle::frames::COLUMNS;
use oracle::radar::vitals::VitalsEstimator;
use oracle::random::Random;
use oracle::{Micros, argument};
use theirs::{Answer, Theirs, numbers};

/// How many answers there were, of each sort.
#[derive(Default)]
struct Tally {
    frames: u64,
    estimates: u64,
    empty: u64,
    accepted: u64,
    renewed: u64,
}

impl Tally {
    fn add(&mut self, answer: Answer) {
        self.frames += 1;
        if let Some((_, _, lag, accepted)) = answer {
            self.estimates += 1;
            self.empty += u64::from(lag == 0);
            self.accepted += u64::from(accepted);
        }
    }
}

impl fmt::Display for Tally {
    fn fmt(&self, f: &mut fmt::Formatter<'_>) -> fmt::Result {
        write!(f, "{} frames, {} estimates ", self.frames, self.estimates)?;
        write!(f, "({} empty, {} accepted), ", self.empty, self.accepted)?;
        write!(f, "{} restarts with a block open", self.renewed)
    }
}

/// Frames through a new estimator, each compared as it goes.
fn fed(
    differ: &mut Differ,
    tally: &mut Tally,
    random: &mut Random,
    n: usize,
    config: Config,
    frames: &[Frame],
) {
    let mut theirs = Theirs::new(n, config);
    let mut ours = Ours::new(random, n, config);
    for (i, frame) in frames.iter().enumerate() {
        pushed(differ, tally, &mut theirs, &mut ours, i, frame);
    }
    tally.renewed += theirs.renewed;
}

/// One frame to both: all that the call tells. Where no estimate is due the numbers are 0.
fn pushed(
    differ: &mut Differ,
    tally: &mut Tally,
    theirs: &mut Theirs,
    ours: &mut Ours,
    i: usize,
    frame: &Frame,
) {
    let rust = theirs.push(frame);
    let pushed = ours.push(*frame);
    ours.state = pushed.state;
    let input = ("push", ours.n, ours.config, i, frame.count);
    let told = (0, rust.is_some(), shown(rust, frame.time));
    differ.compare(&input, &told, &(pushed.refusal, pushed.due, pushed.vitals));
    tally.add(rust);
}

/// The Rust's answer as the call shows it.
fn shown(answer: Answer, time: u64) -> Vitals {
    answer.map_or(
        Vitals::default(),
        |(bpm_x10, confidence, lag_x16, accepted)| Vitals {
            bpm_x10,
            confidence,
            lag_x16,
            accepted,
            at: time,
        },
    )
}

/// Frames of a source; with `anywhere` the count may change within a block.
fn frames_of(
    random: &mut Random,
    n: usize,
    config: Config,
    blocks: usize,
    anywhere: bool,
) -> Vec<Frame> {
    let decim = u64::from(config.decim.max(1));
    let change = random.pick(&[0, 0, 2 * n as u64, 4 * n as u64]);
    let mut source = Source::new(random, decim, n, change);
    let (mut open, mut count) = (0, 0);
    let mut frames = Vec::new();
    while frames.len() < blocks * decim as usize {
        let frame = source.frame(random, anywhere || open == 0);
        if frame.count != 0 {
            open = if frame.count == count { open + 1 } else { 1 } % decim;
            count = frame.count;
        }
        frames.push(frame);
    }
    frames
}

/// Frames through the public calls, with resets and with damaged copies between them.
fn by_calls(differ: &mut Differ, tally: &mut Tally, random: &mut Random, n: usize) {
    let config = config(random, n);
    let frames = frames_of(random, n, config, 2 * n + 12, true);
    let mut theirs = Theirs::new(n, config);
    let mut ours = Ours::new(random, n, config);
    for (i, &frame) in frames.iter().enumerate() {
        if random.one_in(8) {
            refusals::damaged(differ, random, &ours, frame);
        }
        if random.one_in(4 * frames.len() as u64) {
            theirs.reset();
            let begun = ours.reset();
            let due = Begun {
                refusal: 0,
                state: NEW,
            };
            differ.compare(&("reset", n, config, i), &due, &begun);
            ours.state = begun.state;
        }
        pushed(differ, tally, &mut theirs, &mut ours, i, &frame);
    }
    tally.renewed += theirs.renewed;
}

/// The largest blocks, and the longest wait for an estimate.
fn ends(differ: &mut Differ, tally: &mut Tally, random: &mut Random) {
    for n in [4, 5] {
        let mut slow = config(random, n);
        (slow.decim, slow.update_every) = (32_767, 1);
        (slow.rate_hz, slow.band) = (10, calls::breathing(50).band);
        slow.band.hi_mhz = 6000;
        let frames = frames_of(random, n, slow, n + 1, false);
        fed(differ, tally, random, n, slow, &frames);
        let full = Frame::of(&[65_535; COLUMNS], 0);
        fed(differ, tally, random, n, slow, &vec![full; 32_767 * 4]);
    }
    let mut rare = config(random, 4);
    (rare.decim, rare.update_every) = (1, 65_535);
    let frames = frames_of(random, 4, rare, 140_000, false);
    fed(differ, tally, random, 4, rare, &frames);
}

/// What a restart with a block open makes of it: the Rust keeps the totals, ours and a new one do not.
fn half_filled(differ: &mut Differ, random: &mut Random) {
    let config = Config {
        decim: 2,
        rate_hz: 10,
        band: Band {
            lo_mhz: 2500,
            hi_mhz: 5000,
        },
        update_every: 1,
        accept_permille: 400,
        highpass: 0,
    };
    let frame = |a: u16, count: usize| Frame {
        entry: [a; COLUMNS],
        count,
        time: 0,
    };
    let mut frames = vec![frame(1000, 2)];
    for a in [100, 200, 100, 200, 100, 200, 100, 200] {
        frames.extend([frame(a, 1), frame(a, 1)]);
    }
    let last = |from: usize| {
        let mut rust = VitalsEstimator::<8>::new(config.into());
        let frames = frames[from..].iter();
        let answers = frames.map(|f| rust.push(&f.features(), Micros(0)));
        answers.last().unwrap().map(numbers)
    };
    let (kept, new) = (last(0), last(1));
    let mut ours = Ours::new(random, 8, config);
    let mut told = Vitals::default();
    for &frame in &frames {
        let pushed = ours.push(frame);
        (ours.state, told) = (pushed.state, pushed.vitals);
    }
    differ.compare(&"block emptied", &shown(new, 0), &told);
    println!("a restart with a block open: the Rust {kept:?}, a new one {new:?}");
}

/// Frames of every number of blocks, alone and with other calls between them.
fn rounds(differ: &mut Differ, tally: &mut Tally, random: &mut Random, rounds: u64) {
    for _ in 0..rounds {
        for &n in BLOCKS {
            // of four blocks no estimate finds a rhythm
            let runs = if n == 4 { 1 } else { 2 + 128 / n };
            for _ in 0..runs {
                let config = config(random, n);
                let anywhere = random.one_in(3);
                let blocks = n + random.between(1, 16 + 256 / n as u64) as usize;
                let frames = frames_of(random, n, config, blocks, anywhere);
                fed(differ, tally, random, n, config, &frames);
            }
            if n <= 128 || random.one_in(4) {
                by_calls(differ, tally, random, n);
            }
        }
    }
}

fn main() -> ExitCode {
    let count = argument(2, 100);
    differ::compare("vitals", |differ, random| {
        let tally = &mut Tally::default();
        half_filled(differ, random);
        bands::lags(differ, random, count);
        bands::presets(differ, random, count);
        refusals::new(differ, random);
        ends(differ, tally, random);
        rounds(differ, tally, random, count);
        println!("{tally}");
        pace::measure(random);
    })
}

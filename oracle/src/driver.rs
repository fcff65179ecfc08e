//! The driver of both kinds of detector over a window, as `compare_presence` and
//! `compare_phase_detector` have it: `[seed] [runs]`.
//!
//! Frame after frame goes through the public calls; settings, states, sums and memory that do not
//! fit are refused by document 01's numbers and leave everything as it was.

mod calls;
mod inputs;
mod refusals;

use std::fmt::Debug;
use std::hint::black_box;
use std::process::ExitCode;

use rusty_esp_core::Micros;

use crate::argument;
use crate::detectors::Detector;
use crate::differ::{self, Differ};
use crate::frames::{COLUMNS, Frame};
use crate::kinds::{self, Config, Kind, LONGEST, Numbers};
use crate::random::Random;
use crate::timer::ratio;

use calls::Ours;
pub use calls::{Answer, Outcome, State};
use inputs::{Room, config};

/// Of a subject's kind: an entry, a threshold, the settings, a frame.
pub type Entry<S> = <<S as Subject>::Kind as Kind>::Entry;
pub type Level<S> = <<S as Subject>::Kind as Kind>::Level;
pub type Settings<S> = Config<Level<S>>;
pub type FrameOf<S> = Frame<Entry<S>>;

/// A detector of ours: its exported calls (see `exported_calls`), and what is made up for it.
pub trait Subject: Clone {
    type Kind: Kind;
    /// The sums that are carried for each column, of two sorts.
    type Sums: Debug + Copy + PartialEq;

    const NAME: &'static str;
    /// The highest wander.
    const MOST: u32;
    /// How much the entries of a room differ from frame to frame.
    const JITTERS: &'static [u64];
    /// Document 01's bench cases: a window, the entries of its two halves, and the last answer.
    const BENCH: [(usize, [Entry<Self>; 2], Numbers); 2];

    /// The exported calls.
    fn begin(rows: &mut [u8], w: usize) -> Outcome<Self::Sums>;
    fn reset(rows: &[u8], w: usize, state: State, sums: Self::Sums) -> Outcome<Self::Sums>;
    fn push(
        rows: &mut [u8],
        w: usize,
        config: Settings<Self>,
        state: State,
        sums: Self::Sums,
        frame: FrameOf<Self>,
    ) -> Answer<Self::Sums>;
    /// What else it exports.
    fn others(_: &mut Differ) {}

    /// The sums of `w` rows of zeros.
    fn new_sums(w: usize) -> Self::Sums;
    /// Makes a sum of the first or the second sort wrong.
    fn spoil_sum(random: &mut Random, sums: &mut Self::Sums, column: usize, second: bool);
    /// Makes the row with the byte `at` one of other sums.
    fn spoil_row(random: &mut Random, rows: &mut [u8], at: usize);

    fn threshold(random: &mut Random) -> Level<Self>;
    /// The entries of a room.
    fn base(random: &mut Random) -> [Entry<Self>; COLUMNS];
    /// What now and then happens to a room: to its entries or to how much they differ.
    fn change(random: &mut Random, base: &mut [Entry<Self>; COLUMNS], jitter: &mut u64);
    /// An entry of a frame, by that of the room.
    fn noisy(random: &mut Random, base: Entry<Self>, jitter: u64) -> Entry<Self>;
    /// An entry of a frame that is timed.
    fn timed(random: &mut Random, column: usize, walking: bool) -> Entry<Self>;
}

/// The whole comparison, and the pace at its end.
pub fn drive<S: Subject>() -> ExitCode {
    differ::compare(S::NAME, |differ, random| {
        S::others(differ);
        bench::<S>(differ, random);
        refusals::new::<S>(differ, random);
        for i in 0..argument(2, 2_000) {
            let w = random.pick(&[1, 2, 3, 5, 50]);
            by_pushes::<S>(differ, random, w, 600);
            by_calls::<S>(differ, random, w, 200);
            if i % 250 == 0 {
                by_calls::<S>(differ, random, LONGEST, 20);
            }
        }
        longest::<S>(differ, random);
        measure::<S>(random);
    })
}

fn bench<S: Subject>(differ: &mut Differ, random: &mut Random) {
    for (w, [first, second], due) in S::BENCH {
        let mut ours = Ours::<S>::new(random, w);
        let answers = (0..w).map(|i| {
            let frame = Frame {
                entry: [if i < w / 2 { first } else { second }; COLUMNS],
                count: 1,
                time: i as u64,
            };
            ours.push(S::Kind::DEFAULT, frame)
        });
        differ.compare(&("bench", w), &due, &answers.last().unwrap());
    }
}

/// Both detectors, with their size and their settings.
struct Pair<S: Subject> {
    w: usize,
    config: Settings<S>,
    rust: Box<dyn Detector<<S::Kind as Kind>::Frame, Level<S>>>,
    ours: Ours<S>,
}

impl<S: Subject> Pair<S> {
    /// New ones, ours over memory of any content.
    fn new(random: &mut Random, w: usize) -> Self {
        let config = config::<S>(random);
        Pair {
            w,
            config,
            rust: S::Kind::detector(w, config),
            ours: Ours::new(random, w),
        }
    }

    fn push(&mut self, differ: &mut Differ, i: usize, frame: FrameOf<S>) {
        let rust = kinds::push::<S::Kind>(&mut *self.rust, &frame);
        let ours = self.ours.push(self.config, frame);
        let input = (self.w, self.config, i, frame.count, frame.time);
        differ.compare(&input, &rust, &ours);
    }
}

/// Frames alone.
fn by_pushes<S: Subject>(differ: &mut Differ, random: &mut Random, w: usize, frames: usize) {
    let mut room = Room::<S>::new(random);
    let mut pair = Pair::<S>::new(random, w);
    for i in 0..frames {
        pair.push(differ, i, room.frame(random));
    }
}

/// Frames with resets and with damaged copies between them.
fn by_calls<S: Subject>(differ: &mut Differ, random: &mut Random, w: usize, frames: usize) {
    let mut room = Room::<S>::new(random);
    let mut pair = Pair::<S>::new(random, w);
    for i in 0..frames {
        let frame = room.frame(random);
        if random.one_in(8) {
            refusals::damaged(differ, random, &pair.ours, pair.config, frame);
        }
        if random.one_in(50) {
            pair.rust.reset();
            pair.ours.reset();
        }
        pair.push(differ, i, frame);
    }
}

/// The longest window, filled by frames of one count and then moved on.
fn longest<S: Subject>(differ: &mut Differ, random: &mut Random) {
    let mut room = Room::<S>::new(random);
    let mut pair = Pair::<S>::new(random, LONGEST);
    for i in 0..LONGEST + 500 {
        let frame = Frame {
            count: 56,
            ..room.frame(random)
        };
        pair.push(differ, i, frame);
    }
}

/// A push, which checks the memory, against the Rust's, W 50 and 56 columns.
fn measure<S: Subject>(random: &mut Random) {
    let config = S::Kind::DEFAULT;
    let frames: Vec<FrameOf<S>> = (0..10_000)
        .map(|i| {
            let mut entry = [Entry::<S>::default(); COLUMNS];
            for (column, e) in entry[..56].iter_mut().enumerate() {
                *e = S::timed(random, column, i % 400 >= 200);
            }
            Frame {
                entry,
                count: 56,
                time: 20_000 * i,
            }
        })
        .collect();
    let rust_frames: Vec<_> = frames.iter().map(S::Kind::frame).collect();
    let begun = Ours::<S>::new(random, 50);
    let ratio = ratio(
        21,
        || {
            let mut rust = S::Kind::timed(config);
            for (rust_frame, frame) in rust_frames.iter().zip(&frames) {
                black_box(rust.push(black_box(rust_frame), Micros(frame.time)));
            }
        },
        || {
            let mut ours = begun.clone();
            for &frame in &frames {
                black_box(ours.push(config, frame));
            }
        },
    );
    println!("10,000 pushes, memory checked, W 50, 56 columns: {ratio}");
}

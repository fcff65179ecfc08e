//! Settings and frames that are made up.

use super::{Entry, FrameOf, Settings, Subject};
use crate::frames::{COLUMNS, Frame};
use crate::kinds::Config;
use crate::random::Random;

/// Thresholds, of which some are equal, crossed or at an end of their range.
pub fn config<S: Subject>(random: &mut Random) -> Settings<S> {
    let on = S::threshold(random);
    let off = match random.below(3) {
        0 => on,
        _ => S::threshold(random),
    };
    let hold = match random.below(4) {
        0 => 0,
        1 => random.any_size(),
        _ => random.below(100),
    };
    Config { on, off, hold }
}

/// A source of frames: a room that now and then changes, as do its count and its clock.
pub struct Room<S: Subject> {
    base: [Entry<S>; COLUMNS],
    jitter: u64,
    count: usize,
    time: u64,
}

impl<S: Subject> Room<S> {
    pub fn new(random: &mut Random) -> Self {
        Room {
            base: S::base(random),
            jitter: random.pick(S::JITTERS),
            count: random.pick(&[1, 2, 52, 56, 63, 64]),
            time: random.pick(&[0, 5, 1_000_000, u64::MAX - 300]),
        }
    }

    pub fn frame(&mut self, random: &mut Random) -> FrameOf<S> {
        if random.one_in(40) {
            self.count = random.below(65) as usize;
        }
        if random.one_in(60) {
            S::change(random, &mut self.base, &mut self.jitter);
        }
        self.time = match random.below(30) {
            0 => random.any_size(),
            1 => self.time.wrapping_sub(random.below(200)),
            2 => self.time.saturating_add(random.below(1_000_000)),
            _ => self.time.wrapping_add(random.below(40)),
        };
        let entry = self.base.map(|base| S::noisy(random, base, self.jitter));
        let count = if random.one_in(50) { 0 } else { self.count };
        Frame {
            entry,
            count,
            time: self.time,
        }
    }
}

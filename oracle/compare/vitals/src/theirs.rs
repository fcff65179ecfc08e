//! The Rust's estimator.

use oracle::Micros;
use oracle::detectors::{self, Rhythm};
use oracle::radar::vitals::Vitals;

use crate::calls::{Config, Frame};

/// Rate, confidence, lag and whether it is accepted, if one is due.
pub type Answer = Option<(u16, u16, u32, bool)>;

pub fn numbers(v: Vitals) -> (u16, u16, u32, bool) {
    (v.bpm_x10, v.confidence, v.lag_x16, v.accepted)
}

/// The estimator, and how many frames its open block has.
pub struct Theirs {
    rhythm: Box<dyn Rhythm>,
    n: usize,
    config: Config,
    count: usize,
    open: u16,
    pub renewed: u64,
}

impl Theirs {
    pub fn new(n: usize, config: Config) -> Theirs {
        Theirs {
            rhythm: detectors::rhythm(n, config.into()),
            n,
            config,
            count: 0,
            open: 0,
            renewed: 0,
        }
    }

    pub fn push(&mut self, frame: &Frame) -> Answer {
        if frame.count != 0 {
            if frame.count != self.count {
                self.renew();
            }
            self.count = frame.count;
            self.open = (self.open + 1) % self.config.decim.max(1);
        }
        let answer = self.rhythm.push(&frame.features(), Micros(frame.time));
        answer
            .inspect(|v| assert_eq!(v.at.0, frame.time))
            .map(numbers)
    }

    /// A restart with a block open: a new one, for the Rust's own keeps the block's totals.
    fn renew(&mut self) {
        if self.open != 0 {
            self.rhythm = detectors::rhythm(self.n, self.config.into());
            self.open = 0;
            self.renewed += 1;
        }
    }

    pub fn reset(&mut self) {
        self.renew();
        self.rhythm.reset();
        self.count = 0;
    }
}

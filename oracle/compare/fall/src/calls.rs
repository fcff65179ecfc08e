//! The library's calls.

use oracle::falls::Config;
use oracle::radar::fall::FallEvent;

/// A state of the machine. That of a new one is all 0.
#[repr(C)]
#[derive(Debug, Default, Clone, Copy, PartialEq)]
pub struct Words {
    pub tag: u8,
    pub peak: u16,
    pub a: u64,
    pub b: u64,
}

#[repr(C)]
#[derive(Debug, Default, Clone, Copy, PartialEq)]
pub struct Said {
    pub refusal: u8,
    pub fall: u8,
    pub peak_permille: u16,
    pub burst_at: u64,
    pub still_since: u64,
    pub at: u64,
}

#[repr(C)]
#[derive(Debug, Clone, Copy, PartialEq)]
pub struct Pushed {
    pub words: Words,
    pub said: Said,
}

unsafe extern "C" {
    fn fall_push(config: Config, words: Words, wander: u16, now: u64) -> Pushed;
}

pub fn push(config: Config, words: Words, wander: u16, now: u64) -> Pushed {
    unsafe { fall_push(config, words, wander, now) }
}

impl Said {
    pub fn of(event: Option<FallEvent>) -> Said {
        event.map_or(Said::default(), |e| Said {
            refusal: 0,
            fall: 1,
            peak_permille: e.peak_permille,
            burst_at: e.burst_at.0,
            still_since: e.still_since.0,
            at: e.at.0,
        })
    }
}

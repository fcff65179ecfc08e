//! Presence and phase: two kinds of detector over a window, alike but for their types.

use std::fmt::Debug;

use rusty_esp_core::Micros;

use crate::detectors::{self, Detector};
use crate::frames::Frame;
use crate::radar::csi::{self, Features, PresenceDetector};
use crate::radar::phase::{PhaseConfig, PhaseDetector, Phases};

/// The longest window.
pub const LONGEST: usize = 8192;

/// Two thresholds, and for how long presence is held.
#[repr(C)]
#[derive(Debug, Clone, Copy)]
pub struct Config<L> {
    pub on: L,
    pub off: L,
    pub hold: u64,
}

/// A kind of detector: its types, and the Rust's detector of it.
pub trait Kind {
    /// An entry of a frame.
    type Entry: Copy + Default + From<u8> + Into<i32>;
    /// A threshold; the wander.
    type Level: Copy + Debug + Into<u32>;
    /// The Rust's type of a frame.
    type Frame;
    /// The Rust's detector of 50 frames, which is timed.
    type Timed: Detector<Self::Frame, Self::Level>;

    /// The settings of document 01.
    const DEFAULT: Config<Self::Level>;

    /// The frame as the Rust takes it.
    fn frame(frame: &Frame<Self::Entry>) -> Self::Frame;

    /// The Rust's detector, of a listed size.
    fn detector(
        w: usize,
        config: Config<Self::Level>,
    ) -> Box<dyn Detector<Self::Frame, Self::Level>>;

    fn timed(config: Config<Self::Level>) -> Self::Timed;
}

/// The verdict's two numbers and the wander.
pub type Numbers = (u8, u8, u32);

/// What the Rust's detector of this kind answers to a frame.
pub fn push<K: Kind>(
    detector: &mut dyn Detector<K::Frame, K::Level>,
    frame: &Frame<K::Entry>,
) -> Numbers {
    let verdict = detector.push(&K::frame(frame), Micros(frame.time));
    (verdict.tag(), verdict.motion(), detector.wander().into())
}

/// By the wander of the amplitudes.
pub struct Presence;

impl Kind for Presence {
    type Entry = u16;
    type Level = u16;
    type Frame = Features;
    type Timed = PresenceDetector<50>;

    const DEFAULT: Config<u16> = Config {
        on: 32,
        off: 23,
        hold: 3_000_000,
    };

    fn frame(frame: &Frame<u16>) -> Features {
        frame.features()
    }

    fn detector(w: usize, config: Config<u16>) -> Box<dyn Detector<Features, u16>> {
        detectors::presence(w, config.into())
    }

    fn timed(config: Config<u16>) -> PresenceDetector<50> {
        PresenceDetector::new(config.into())
    }
}

impl From<Config<u16>> for csi::Config {
    fn from(c: Config<u16>) -> Self {
        csi::Config {
            on_permille: c.on,
            off_permille: c.off,
            hold: Micros(c.hold),
        }
    }
}

/// By the circular variance of the angles.
pub struct Phase;

impl Kind for Phase {
    type Entry = i16;
    type Level = u32;
    type Frame = Phases;
    type Timed = PhaseDetector<50>;

    const DEFAULT: Config<u32> = Config {
        on: 380,
        off: 260,
        hold: 3_000_000,
    };

    fn frame(frame: &Frame<i16>) -> Phases {
        frame.phases()
    }

    fn detector(w: usize, config: Config<u32>) -> Box<dyn Detector<Phases, u32>> {
        detectors::phase(w, config.into())
    }

    fn timed(config: Config<u32>) -> PhaseDetector<50> {
        PhaseDetector::new(config.into())
    }
}

impl From<Config<u32>> for PhaseConfig {
    fn from(c: Config<u32>) -> Self {
        PhaseConfig {
            on_ppm: c.on,
            off_ppm: c.off,
            hold: Micros(c.hold),
        }
    }
}

//! The Rust detectors by a size that is a number: each listed size is one type behind a trait.
//!
//! They are kept in boxes. At 8,192 rows a detector has a megabyte, which passes over the stack
//! once as it is made; a thread with a small stack is no place for that.

use rusty_esp_core::Micros;

use crate::radar::csi::{Config, Features, PresenceDetector, Verdict};
use crate::radar::phase::{PhaseConfig, PhaseDetector, Phases};
use crate::radar::vitals::{Vitals, VitalsConfig, VitalsEstimator};

/// A detector over a window of frames `F`; its wander is an `L`.
pub trait Detector<F, L> {
    fn push(&mut self, frame: &F, now: Micros) -> Verdict;
    fn wander(&self) -> L;
    fn reset(&mut self);
}

pub trait Rhythm {
    fn push(&mut self, features: &Features, now: Micros) -> Option<Vitals>;
    fn reset(&mut self);
}

macro_rules! detector {
    ($type:ident of $frame:ty, $level:ty) => {
        impl<const W: usize> Detector<$frame, $level> for $type<W> {
            fn push(&mut self, frame: &$frame, now: Micros) -> Verdict {
                $type::push(self, frame, now)
            }
            fn wander(&self) -> $level {
                $type::wander(self)
            }
            fn reset(&mut self) {
                $type::reset(self);
            }
        }
    };
}

detector!(PresenceDetector of Features, u16);
detector!(PhaseDetector of Phases, u32);

impl<const N: usize> Rhythm for VitalsEstimator<N> {
    fn push(&mut self, features: &Features, now: Micros) -> Option<Vitals> {
        VitalsEstimator::push(self, features, now)
    }
    fn reset(&mut self) {
        VitalsEstimator::reset(self);
    }
}

/// Hands the window sizes W to a macro.
macro_rules! windows {
    ($to:ident $($more:tt)*) => { $to!([1, 2, 3, 5, 8, 50, 64, 200, 8192] $($more)*) };
}

/// Hands the numbers of blocks N to a macro.
macro_rules! blocks {
    ($to:ident $($more:tt)*) => { $to!([4, 5, 8, 16, 64, 127, 128, 129, 200, 512] $($more)*) };
}

macro_rules! list {
    ([$($size:literal),*]) => { &[$($size),*] };
}

macro_rules! boxed {
    ([$($size:literal),*] $type:ident $wanted:ident $config:ident) => {
        match $wanted {
            $($size => Box::new($type::<$size>::new($config)),)*
            _ => panic!("{} of size {} is not built", stringify!($type), $wanted),
        }
    };
}

/// The sizes that can be asked for.
pub const WINDOWS: &[usize] = windows!(list);
pub const BLOCKS: &[usize] = blocks!(list);

pub fn presence(w: usize, config: Config) -> Box<dyn Detector<Features, u16>> {
    windows!(boxed PresenceDetector w config)
}

pub fn phase(w: usize, config: PhaseConfig) -> Box<dyn Detector<Phases, u32>> {
    windows!(boxed PhaseDetector w config)
}

pub fn rhythm(n: usize, config: VitalsConfig) -> Box<dyn Rhythm> {
    blocks!(boxed VitalsEstimator n config)
}

//! Frames as the exported calls take them.

use crate::radar::csi::{Features, MAX_SUBCARRIERS};
use crate::radar::phase::Phases;

pub const COLUMNS: usize = MAX_SUBCARRIERS;

/// Amplitudes or angles, of which the first `count` are in use, and a time.
#[repr(C)]
#[derive(Clone, Copy)]
pub struct Frame<E> {
    pub entry: [E; COLUMNS],
    pub count: usize,
    pub time: u64,
}

impl<E: Copy + Default> Frame<E> {
    /// These entries, all in use.
    pub fn of(entries: &[E], time: u64) -> Self {
        let mut entry = [E::default(); COLUMNS];
        entry[..entries.len()].copy_from_slice(entries);
        Frame {
            entry,
            count: entries.len(),
            time,
        }
    }
}

impl Frame<u16> {
    /// As the Rust takes it; mean and variance are left out.
    pub fn features(&self) -> Features {
        Features {
            amplitude: self.entry,
            count: self.count as u8,
            mean: 0,
            variance: 0,
        }
    }
}

impl Frame<i16> {
    /// As the Rust takes it.
    pub fn phases(&self) -> Phases {
        Phases {
            phase: self.entry,
            count: self.count as u8,
        }
    }
}

//! What is measured in I/Q bytes: features and phases, by the Rust and as the exported calls take and
//! return them.

use std::slice;

use rusty_esp_core::Micros;

use crate::radar::csi::{CsiFrame, Features, Layout, MAX_SUBCARRIERS};
use crate::radar::csi_stream::layout_of;
use crate::radar::phase::{Phases, atan2_brad};
use crate::refusals::{TAG, number};

/// Bytes as the Rust takes them.
#[inline]
pub fn signed(iq: &[u8]) -> &[i8] {
    // SAFETY: an i8 is as large as a u8, and every value is one of both.
    unsafe { slice::from_raw_parts(iq.as_ptr().cast(), iq.len()) }
}

/// A frame of which nothing but the I/Q bytes matters.
#[inline]
pub fn frame(iq: &[i8]) -> CsiFrame<'_> {
    CsiFrame {
        timestamp: Micros(0),
        rssi: 0,
        channel: 0,
        iq,
    }
}

/// The Rust's features of bytes under a tag, or the refusal.
#[inline]
pub fn features(iq: &[u8], tag: u8) -> Result<Features, u8> {
    let layout = layout_of(tag).ok_or(TAG)?;
    frame(signed(iq)).features(layout).map_err(number)
}

/// The Rust's phases of bytes under a tag, or the refusal.
pub fn phases(iq: &[u8], tag: u8) -> Result<Phases, u8> {
    let layout = layout_of(tag).ok_or(TAG)?;
    frame(signed(iq)).phases(layout).map_err(number)
}

/// A layout of `n` entries, all in use.
pub fn whole(n: usize) -> Layout {
    Layout {
        valid: slice::from_ref(Box::leak(Box::new(0..n))),
        entries: n,
    }
}

/// Writes the angles of bytes over the first of these.
pub fn put_angles(angle: &mut [i16; MAX_SUBCARRIERS], iq: &[u8]) {
    for (a, pair) in angle.iter_mut().zip(signed(iq).chunks_exact(2)) {
        *a = atan2_brad(pair[0].into(), pair[1].into());
    }
}

/// Features as far as a baseline reads them.
pub fn of_variance(count: u8, variance: u32) -> Features {
    Features {
        amplitude: [0; MAX_SUBCARRIERS],
        count,
        mean: 0,
        variance,
    }
}

/// Features as the exported calls have them.
#[repr(C)]
#[derive(Debug, Clone, Copy, PartialEq)]
pub struct Exported {
    amplitude: [u16; MAX_SUBCARRIERS],
    count: u8,
    mean: u16,
    variance: u32,
}

impl From<Features> for Exported {
    #[inline]
    fn from(f: Features) -> Self {
        Exported {
            amplitude: f.amplitude,
            count: f.count,
            mean: f.mean,
            variance: f.variance,
        }
    }
}

/// A refusal, or 0 with features.
#[repr(C)]
#[derive(Debug, Clone, Copy, PartialEq)]
pub struct Measured {
    refusal: u8,
    features: Exported,
}

/// Where features are refused, all of their numbers are 0.
impl From<Result<Features, u8>> for Measured {
    fn from(result: Result<Features, u8>) -> Self {
        let (refusal, features) = match result {
            Ok(features) => (0, features),
            Err(refusal) => (refusal, of_variance(0, 0)),
        };
        Measured {
            refusal,
            features: features.into(),
        }
    }
}

//! The pair census: how many of all pairs of signed bytes have each amplitude, and how many an angle in each sector of the
//! circle. Counted pair by pair, with the Rust's amplitude and angle.

use rusty_esp_dsp::int::isqrt;

use crate::errors::pairs;
use crate::radar::phase::atan2_brad;

/// Amplitudes are 0 to 724.
pub const AMPLITUDES: usize = 725;
pub const SECTORS: usize = 8;

/// In units of an angle.
const TURN: i32 = 65_536;
const SECTOR: i32 = 8_192;

/// How many pairs there are of each, as the exported call has it.
#[repr(C)]
#[derive(Debug, PartialEq)]
pub struct Census {
    pub amplitude: [u32; AMPLITUDES],
    pub sector: [u32; SECTORS],
}

pub fn count() -> Census {
    let mut census = Census {
        amplitude: [0; AMPLITUDES],
        sector: [0; SECTORS],
    };
    for (im, re) in pairs() {
        census.amplitude[amplitude(im, re)] += 1;
        census.sector[sector(atan2_brad(im, re))] += 1;
    }
    census
}

/// The line of `CsiFrame::features`.
pub fn amplitude(im: i32, re: i32) -> usize {
    isqrt((16 * (im * im + re * re)) as u32) as usize
}

/// The sector that an angle belongs to; to a negative one a whole turn is added.
pub fn sector(angle: i16) -> usize {
    (i32::from(angle).rem_euclid(TURN) / SECTOR) as usize
}

//! All pairs of signed bytes, counted by amplitude and by sector.

use crate::ffi;

/// The amplitudes of a pair are below this: 0 to 724.
pub const AMPLITUDES: usize = 725;

/// The equal sectors of the circle.
pub const SECTORS: usize = 8;

/// How many of all 65,536 I/Q pairs of signed bytes, imaginary and real part from -128 to 127, fall
/// where. Each list totals 65,536.
#[repr(C)]
#[derive(Debug, Clone, PartialEq, Eq)]
pub struct Census {
    /// The pairs of each amplitude: four times the distance from 0, rounded down.
    pub amplitude: [u32; AMPLITUDES],
    /// The pairs of each sector. A turn has 65,536 units of angle; sector k holds the angles from
    /// k · 8,192 on and below (k + 1) · 8,192, where a whole turn is added to a negative angle. The
    /// angle of (0, 0) is 0.
    pub sector: [u32; SECTORS],
}

/// Goes through all pairs and counts them, the same each time.
#[must_use]
pub fn census() -> Census {
    ffi::census()
}

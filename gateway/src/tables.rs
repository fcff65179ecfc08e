//! The arctangent and sine tables at 256 and at 1,024 steps. Each entry is the whole number nearest
//! the true value. They are made by a rule in whole numbers, which docs/TABLES.md of the repository
//! has; each fourth entry at 1,024 steps is one at 256.

use crate::ffi;

/// The entries at 256 steps.
pub const COARSE_ENTRIES: usize = 257;

/// The entries at 1,024 steps.
pub const FINE_ENTRIES: usize = 1025;

/// Entry i is the angle whose tangent is i/256, 65,536 units being a turn: 0 to 8,192. The angles of
/// samples are read from this table.
#[must_use]
pub fn atan_256() -> [u16; COARSE_ENTRIES] {
    ffi::atan_256()
}

/// Entry i is the angle whose tangent is i/1,024.
#[must_use]
pub fn atan_1024() -> [u16; FINE_ENTRIES] {
    ffi::atan_1024()
}

/// Entry i is the sine of i/256 of a quarter turn, scaled to 16,384. The unit vectors of phases are
/// read from this table.
#[must_use]
pub fn sine_256() -> [u16; COARSE_ENTRIES] {
    ffi::sine_256()
}

/// Entry i is the sine of i/1,024 of a quarter turn, scaled to 16,384.
#[must_use]
pub fn sine_1024() -> [u16; FINE_ENTRIES] {
    ffi::sine_1024()
}

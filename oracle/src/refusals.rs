//! The refusals, by document 01's numbers.

use rusty_esp_core::Error;

pub const SETTINGS: u8 = 1;
/// Memory, or a state handed in by value.
pub const MEMORY: u8 = 2;
pub const FORMAT: u8 = 3;
pub const TAG: u8 = 4;
pub const IQ: u8 = 5;
pub const SPACE: u8 = 6;
pub const COUNT: u8 = 7;
pub const FULL: u8 = 8;
pub const RECORD: u8 = 9;
/// What the chances of a fall are asked for.
pub const CHANCES: u8 = 13;

/// The number of what the Rust refuses.
pub fn number(error: Error) -> u8 {
    match error {
        Error::InvalidFormat => FORMAT,
        Error::Unsupported => TAG,
        Error::InvalidGeometry => IQ,
        Error::BufferTooSmall { .. } => SPACE,
    }
}

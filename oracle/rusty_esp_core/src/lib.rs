//! Stand-in for the crate of this name that the Rust sources lean on: their clock and errors.

pub use error::Error;

/// An unsigned 64-bit count of microseconds (document 01).
#[derive(Debug, Clone, Copy, PartialEq, Eq, PartialOrd, Ord, Default)]
pub struct Micros(pub u64);

impl Micros {
    pub const ZERO: Micros = Micros(0);

    pub const fn from_secs(secs: u64) -> Self {
        Micros(secs * 1_000_000)
    }
}

pub mod error {
    #[derive(Debug, Clone, Copy, PartialEq, Eq)]
    pub enum Error {
        InvalidFormat,
        InvalidGeometry,
        Unsupported,
        BufferTooSmall { needed: usize },
    }

    pub type Result<T> = core::result::Result<T, Error>;
}

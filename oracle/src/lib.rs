//! The measure of every answer: the Rust sources, built as they are but for the index of an angle, and what the drivers
//! share.

/// The six Rust sources. build.rs says where they stand and what is changed.
pub mod radar {
    include!(concat!(env!("OUT_DIR"), "/radar.rs"));
}

/// The Rust's own unit vectors and their table, cut out of phase.rs as it is built.
pub mod vectors {
    include!(concat!(env!("OUT_DIR"), "/unit_vector.rs"));
}

/// The Rust's own angle and its table, cut out of phase.rs before it is changed: the index is rounded down.
pub mod floored {
    include!(concat!(env!("OUT_DIR"), "/floored.rs"));
}

pub use rusty_esp_core::{Error, Micros};

pub mod calls;
pub mod census;
pub mod chance;
pub mod detectors;
pub mod differ;
pub mod driver;
pub mod errors;
pub mod falls;
pub mod fixed;
pub mod frames;
pub mod kinds;
pub mod layout;
pub mod lent;
pub mod lines;
pub mod measured;
pub mod memory;
pub mod picture;
pub mod random;
pub mod refusals;
pub mod room;
pub mod samples;
pub mod settings;
pub mod streams;
pub mod tables;
pub mod timer;

/// The numeric word at `position` (from 1) of the command line, or else `default`.
pub fn argument(position: usize, default: u64) -> u64 {
    match std::env::args().nth(position) {
        None => default,
        Some(word) => word
            .parse()
            .unwrap_or_else(|_| panic!("`{word}` is not a number")),
    }
}

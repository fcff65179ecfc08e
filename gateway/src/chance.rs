//! How often chance makes a fall: of all sequences of wander values out of a few, how many give how
//! many suspected falls.

use std::error::Error;
use std::fmt;

use crate::ffi;
use crate::settings::{Falls, Micros};

/// The most choices.
pub const CHOICES: usize = 4;

/// The most frames of a sequence.
pub const FRAMES: usize = 24;

/// The longest time from one frame to the next.
pub const SPACING: Micros = Micros::from_secs(1000);

/// For 0 events and for each number of them up to 24.
pub const COUNTS: usize = FRAMES + 1;

/// Why nothing is counted: the number of choices, the length or the spacing is out of its range. A
/// room never says this, so it is no [`Refusal`](crate::Refusal).
#[derive(Debug, Clone, Copy, PartialEq, Eq, Hash)]
pub struct OutOfRange;

impl OutOfRange {
    /// Its number, 13.
    #[must_use]
    pub const fn number(self) -> u8 {
        13
    }
}

impl fmt::Display for OutOfRange {
    fn fmt(&self, f: &mut fmt::Formatter<'_>) -> fmt::Result {
        f.write_str("the number of choices, the length or the spacing is out of its range")
    }
}

impl Error for OutOfRange {}

/// How many sequences give how many events.
#[derive(Debug, Clone, PartialEq, Eq)]
pub struct Chances {
    counts: [u64; COUNTS],
}

impl Chances {
    /// Entry k is how many sequences give exactly k events. At most five events come up.
    #[must_use]
    pub fn counts(&self) -> &[u64; COUNTS] {
        &self.counts
    }

    /// All sequences: the number of choices to the power of the frames.
    #[must_use]
    pub fn total(&self) -> u64 {
        self.counts.iter().sum()
    }

    /// The part of all sequences that gives exactly so many events, in lowest terms.
    #[must_use]
    pub fn fraction(&self, events: usize) -> (u64, u64) {
        let (part, whole) = (self.of(events), self.total());
        let common = common_divisor(part, whole);
        (part / common, whole / common)
    }

    /// The same as one number, from 0 to 1.
    #[must_use]
    pub fn probability(&self, events: usize) -> f64 {
        // both are at most 2^48, so exact
        self.of(events) as f64 / self.total() as f64
    }

    fn of(&self, events: usize) -> u64 {
        self.counts.get(events).copied().unwrap_or(0)
    }
}

/// The greatest common divisor; of 0 and b, it is b.
fn common_divisor(a: u64, b: u64) -> u64 {
    if a == 0 { b } else { common_divisor(b % a, a) }
}

/// Counts, for each number of events, the sequences of so many frames that give exactly that many:
/// as if each were fed to new falls, its first value at time 0 and each other one `spacing` after the
/// one before it. Each frame's wander, in permille, is any of the choices. One that is listed twice
/// counts as two.
///
/// # Errors
///
/// [`OutOfRange`], if there is no choice or more than [`CHOICES`], if `spacing` is above
/// [`SPACING`], or `frames` above [`FRAMES`].
pub fn count(
    falls: &Falls,
    choices: &[u16],
    spacing: Micros,
    frames: usize,
) -> Result<Chances, OutOfRange> {
    let counted = ffi::chances(falls, choices, spacing.0, frames as u64);
    if counted.refusal != 0 {
        return Err(OutOfRange);
    }
    Ok(Chances {
        counts: counted.counts,
    })
}

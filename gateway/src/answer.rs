//! Answers: what the unit says of a record.

use std::fmt;

use crate::refusal::Refusal;

/// The length of an answer's bytes.
pub const ANSWER_LEN: usize = 24;

/// The answer to one record. It is displayed as a line of the program roomlines, which stands in the
/// repository too.
///
/// ```
/// use volkjarp::{Answer, Refusal};
///
/// let refused = Answer::Refused { number: Refusal::Record, at: 143 };
/// assert_eq!(refused.to_string(), "refused 9 at 143");
/// ```
#[derive(Debug, Clone, Copy, PartialEq, Eq)]
#[non_exhaustive]
pub enum Answer {
    /// The record was refused and changed nothing.
    Refused {
        /// Why.
        number: Refusal,
        /// Where the record stands: its kind byte, from the start of the run.
        at: u64,
    },
    /// A sample was watched.
    Watched {
        /// Of presence and phase together.
        verdict: Verdict,
        /// How much moves; 0 unless present.
        motion: u8,
        /// The wander of the amplitudes, in permille: of the last W samples, in whatever order they
        /// came; 0 while they warm up.
        permille: u16,
        /// The wander of the phases, in parts per million: of the same samples, in whatever order
        /// they came; 0 while they warm up.
        ppm: u32,
        /// The breathing rate.
        breathing: Rate,
        /// The heart rate.
        heart: Rate,
        /// A fall is suspected, as of this sample.
        fall: bool,
        /// How far the sample is from the baseline, in permille; 0 without one.
        distance: u16,
    },
    /// A sample went into the baseline.
    Calibrated {
        /// The frames in the baseline.
        frames: u32,
        /// The mean of their variances.
        mean: u32,
    },
    /// All but the settings is as new.
    Reset,
}

/// Whether someone is there.
#[derive(Debug, Clone, Copy, PartialEq, Eq, Hash)]
pub enum Verdict {
    /// Too few samples to say.
    Warming,
    /// No one.
    Absent,
    /// Someone.
    Present,
}

/// A rate, of breathing or of the heart.
#[derive(Debug, Clone, Copy, PartialEq, Eq, Hash)]
pub enum Rate {
    /// No estimate fell due with this sample.
    NotDue,
    /// An estimate was made and is not to be relied on.
    NotAccepted,
    /// An estimate was made and accepted.
    Accepted {
        /// Ten times the rate a minute.
        tenths_per_minute: u16,
    },
}

impl fmt::Display for Answer {
    fn fmt(&self, f: &mut fmt::Formatter<'_>) -> fmt::Result {
        match self {
            Answer::Refused { number, at } => write!(f, "refused {} at {at}", number.number()),
            Answer::Calibrated { frames, mean } => write!(f, "calibrate {frames} {mean}"),
            Answer::Reset => f.write_str("reset"),
            Answer::Watched {
                verdict,
                motion,
                permille,
                ppm,
                breathing,
                heart,
                fall,
                distance,
            } => {
                let fall = if *fall { "fall" } else { "-" };
                write!(f, "watch {verdict} {motion} {permille} {ppm} ")?;
                write!(f, "{breathing} {heart} {fall} {distance}")
            }
        }
    }
}

impl fmt::Display for Verdict {
    fn fmt(&self, f: &mut fmt::Formatter<'_>) -> fmt::Result {
        f.pad(match self {
            Verdict::Warming => "warming",
            Verdict::Absent => "absent",
            Verdict::Present => "present",
        })
    }
}

impl fmt::Display for Rate {
    fn fmt(&self, f: &mut fmt::Formatter<'_>) -> fmt::Result {
        match self {
            Rate::NotDue => f.pad("-"),
            Rate::NotAccepted => f.pad("~"),
            Rate::Accepted { tenths_per_minute } => tenths_per_minute.fmt(f),
        }
    }
}

impl Answer {
    /// The answer that these bytes hold; none if they hold no answer.
    ///
    /// ```
    /// use volkjarp::{ANSWER_LEN, Answer};
    ///
    /// let mut bytes = [0; ANSWER_LEN];
    /// bytes[0] = 3;
    /// assert_eq!(Answer::from_bytes(&bytes), Some(Answer::Reset));
    /// ```
    #[must_use]
    pub fn from_bytes(bytes: &[u8; ANSWER_LEN]) -> Option<Answer> {
        let (answer, used) = match bytes[0] {
            0 => (refused(bytes)?, 10),
            1 => (watched(bytes)?, 18),
            2 => {
                let (frames, mean) = (u32_at(bytes, 1), u32_at(bytes, 5));
                (Answer::Calibrated { frames, mean }, 9)
            }
            3 => (Answer::Reset, 1),
            _ => return None,
        };
        bytes[used..]
            .iter()
            .all(|byte| *byte == 0)
            .then_some(answer)
    }
}

fn refused(bytes: &[u8; ANSWER_LEN]) -> Option<Answer> {
    let number = Refusal::from_number(bytes[1])?;
    let at = u64::from_le_bytes(bytes[2..10].try_into().ok()?);
    Some(Answer::Refused { number, at })
}

fn watched(bytes: &[u8; ANSWER_LEN]) -> Option<Answer> {
    Some(Answer::Watched {
        verdict: match bytes[1] {
            0 => Verdict::Warming,
            1 => Verdict::Absent,
            2 => Verdict::Present,
            _ => return None,
        },
        motion: bytes[2],
        fall: flag(bytes[3])?,
        permille: u16_at(bytes, 4),
        distance: u16_at(bytes, 6),
        ppm: u32_at(bytes, 8),
        breathing: rate(bytes[12], u16_at(bytes, 13))?,
        heart: rate(bytes[15], u16_at(bytes, 16))?,
    })
}

fn flag(byte: u8) -> Option<bool> {
    match byte {
        0 => Some(false),
        1 => Some(true),
        _ => None,
    }
}

fn rate(state: u8, tenths_per_minute: u16) -> Option<Rate> {
    match (state, tenths_per_minute) {
        (0, 0) => Some(Rate::NotDue),
        (1, 0) => Some(Rate::NotAccepted),
        (2, _) => Some(Rate::Accepted { tenths_per_minute }),
        _ => None,
    }
}

fn u16_at(bytes: &[u8; ANSWER_LEN], at: usize) -> u16 {
    u16::from_le_bytes([bytes[at], bytes[at + 1]])
}

fn u32_at(bytes: &[u8; ANSWER_LEN], at: usize) -> u32 {
    u32::from(u16_at(bytes, at)) | u32::from(u16_at(bytes, at + 2)) << 16
}

#[cfg(test)]
mod tests {
    use super::*;

    fn bytes(front: &[u8]) -> [u8; ANSWER_LEN] {
        let mut bytes = [0; ANSWER_LEN];
        bytes[..front.len()].copy_from_slice(front);
        bytes
    }

    fn answer(front: &[u8]) -> Option<Answer> {
        Answer::from_bytes(&bytes(front))
    }

    #[test]
    fn refused() {
        let at = 0x0807_0605_0403_0201;
        let due = Answer::Refused {
            number: Refusal::Full,
            at,
        };
        assert_eq!(answer(&[0, 8, 1, 2, 3, 4, 5, 6, 7, 8]), Some(due));
        assert_eq!(answer(&[0, 0]), None);
        assert_eq!(answer(&[0, 10]), None);
    }

    #[test]
    fn watched() {
        let front = [1, 2, 200, 1, 1, 2, 3, 4, 5, 6, 7, 0, 2, 8, 1, 1];
        let due = Answer::Watched {
            verdict: Verdict::Present,
            motion: 200,
            permille: 0x0201,
            ppm: 0x0007_0605,
            breathing: Rate::Accepted {
                tenths_per_minute: 264,
            },
            heart: Rate::NotAccepted,
            fall: true,
            distance: 0x0403,
        };
        assert_eq!(answer(&front), Some(due));
        for (place, value) in [(1, 3), (3, 2), (12, 3), (16, 1), (18, 1), (23, 1)] {
            let mut other = bytes(&front);
            other[place] = value;
            assert_eq!(Answer::from_bytes(&other), None, "byte {place}");
        }
    }

    #[test]
    fn lines() {
        let front = [1, 2, 200, 1, 1, 2, 3, 4, 5, 6, 7, 0, 2, 8, 1, 1];
        let line = |front: &[u8]| answer(front).unwrap().to_string();
        assert_eq!(line(&front), "watch present 200 513 460293 264 ~ fall 1027");
        assert_eq!(line(&[1]), "watch warming 0 0 0 - - - 0");
        assert_eq!(line(&[2, 7, 0, 0, 0, 9]), "calibrate 7 9");
        assert_eq!(line(&[3]), "reset");
        assert_eq!(line(&[0, 8, 0, 1]), "refused 8 at 256");
    }

    #[test]
    fn calibrated() {
        let due = Answer::Calibrated {
            frames: 65_535,
            mean: u32::MAX,
        };
        assert_eq!(answer(&[2, 255, 255, 0, 0, 255, 255, 255, 255]), Some(due));
    }

    #[test]
    fn reset_and_no_kind() {
        assert_eq!(answer(&[3]), Some(Answer::Reset));
        assert_eq!(answer(&[3, 1]), None);
        assert_eq!(answer(&[4]), None);
    }
}

//! Settings: sizes, thresholds and times, with their ranges.

use std::error::Error;
use std::fmt;

/// The length of the settings' bytes.
pub const SETTINGS_LEN: usize = 118;

/// A time or a duration in microseconds.
#[derive(Debug, Clone, Copy, PartialEq, Eq, Hash, PartialOrd, Ord, Default)]
pub struct Micros(pub u64);

impl Micros {
    /// Whole seconds.
    #[must_use]
    pub const fn from_secs(seconds: u32) -> Self {
        Micros(seconds as u64 * 1_000_000)
    }

    /// Whole milliseconds.
    #[must_use]
    pub const fn from_millis(milliseconds: u32) -> Self {
        Micros(milliseconds as u64 * 1000)
    }
}

/// All that a room is begun with.
///
/// ```
/// use volkjarp::{Micros, Presence, Settings};
///
/// let settings = Settings::new(50)
///     .window(100)
///     .presence(Presence { hold: Micros::from_secs(5), ..Presence::default() });
/// settings.check()?;
/// # Ok::<(), volkjarp::SettingsError>(())
/// ```
#[derive(Debug, Clone, Copy, PartialEq, Eq)]
#[non_exhaustive]
pub struct Settings {
    /// Frames of a window, for presence and phase: 1 to 8,192.
    pub window: u16,
    /// Block means, for breathing and heart: 4 to 512.
    pub blocks: u16,
    /// Presence from amplitudes.
    pub presence: Presence,
    /// Presence from phases.
    pub phase: Phase,
    /// The breathing rate.
    pub breathing: Rhythm,
    /// The heart rate.
    pub heart: Rhythm,
    /// Suspected falls.
    pub falls: Falls,
}

/// Presence from the wander of the amplitudes. [`Presence::default`] is for normalised amplitudes,
/// which a room uses.
#[derive(Debug, Clone, Copy, PartialEq, Eq)]
pub struct Presence {
    /// At or above this wander someone is present.
    pub on_permille: u16,
    /// At or below it, and after the hold, no one is.
    pub off_permille: u16,
    /// How long someone stays present after the last motion.
    pub hold: Micros,
}

impl Default for Presence {
    fn default() -> Self {
        Presence {
            on_permille: 32,
            off_permille: 23,
            hold: Micros::from_secs(3),
        }
    }
}

/// Presence from the wander of the phases.
#[derive(Debug, Clone, Copy, PartialEq, Eq)]
pub struct Phase {
    /// At or above this wander someone is present.
    pub on_ppm: u32,
    /// At or below it, and after the hold, no one is.
    pub off_ppm: u32,
    /// How long someone stays present after the last motion.
    pub hold: Micros,
}

impl Default for Phase {
    fn default() -> Self {
        Phase {
            on_ppm: 380,
            off_ppm: 260,
            hold: Micros::from_secs(3),
        }
    }
}

/// A rate, of breathing or of the heart.
#[derive(Debug, Clone, Copy, PartialEq, Eq)]
pub struct Rhythm {
    /// Frames of a block: at most 32,767; 0 counts as 1.
    pub decim: u16,
    /// Blocks a second: 1 to 1,000.
    pub rate_hz: u32,
    /// The slowest rhythm, in millihertz: from 1.
    pub lo_mhz: u32,
    /// The fastest rhythm, in millihertz: from 1.
    pub hi_mhz: u32,
    /// Blocks from one estimate to the next; 0 counts as 1.
    pub update_every: u16,
    /// The confidence from which a rate is accepted.
    pub accept_permille: u16,
    /// Blocks of the moving average that is taken off; 0 for none.
    pub highpass: u16,
}

impl Rhythm {
    /// Breathing, in blocks of a tenth of a second: `frame_hz` is to be a multiple of 10.
    #[must_use]
    pub fn breathing(frame_hz: u32) -> Self {
        Rhythm {
            decim: frames(frame_hz / 10),
            rate_hz: 10,
            lo_mhz: 150,
            hi_mhz: 550,
            update_every: 10,
            accept_permille: 400,
            highpass: 0,
        }
    }

    /// Heart, in blocks of a 25th of a second: `frame_hz` is to be a multiple of 25. A rate to try,
    /// not one to trust without another to hold it against.
    #[must_use]
    pub fn heart(frame_hz: u32) -> Self {
        Rhythm {
            decim: frames(frame_hz / 25),
            rate_hz: 25,
            lo_mhz: 700,
            hi_mhz: 2200,
            update_every: 25,
            accept_permille: 400,
            highpass: 25,
        }
    }
}

/// Too many frames for a block stay too many, so that [`Settings::check`] says so.
fn frames(count: u32) -> u16 {
    u16::try_from(count).unwrap_or(u16::MAX)
}

/// Falls: motion, a burst, then stillness.
#[derive(Debug, Clone, Copy, PartialEq, Eq)]
pub struct Falls {
    /// At or above this wander someone moves.
    pub active_permille: u16,
    /// At or above it, after moving, is a burst.
    pub burst_permille: u16,
    /// At or below it is stillness.
    pub still_permille: u16,
    /// The shortest motion before a burst.
    pub min_active: Micros,
    /// Stillness that ends motion.
    pub quiet_grace: Micros,
    /// The longest time from a burst to stillness.
    pub settle: Micros,
    /// How long stillness lasts before a fall is suspected.
    pub still_for: Micros,
    /// How long nothing is suspected after that.
    pub refractory: Micros,
}

impl Default for Falls {
    fn default() -> Self {
        Falls {
            active_permille: 32,
            burst_permille: 232,
            still_permille: 30,
            min_active: Micros::from_secs(2),
            quiet_grace: Micros::from_secs(3),
            settle: Micros::from_secs(3),
            still_for: Micros::from_secs(10),
            refractory: Micros::from_secs(60),
        }
    }
}

impl Settings {
    /// The presets for `frame_hz` frames a second, with windows of 50 frames and 128 blocks.
    #[must_use]
    pub fn new(frame_hz: u32) -> Self {
        Settings {
            window: 50,
            blocks: 128,
            presence: Presence::default(),
            phase: Phase::default(),
            breathing: Rhythm::breathing(frame_hz),
            heart: Rhythm::heart(frame_hz),
            falls: Falls::default(),
        }
    }

    /// With windows of so many frames.
    #[must_use]
    pub fn window(self, window: u16) -> Self {
        Settings { window, ..self }
    }

    /// With so many block means.
    #[must_use]
    pub fn blocks(self, blocks: u16) -> Self {
        Settings { blocks, ..self }
    }

    /// With this presence.
    #[must_use]
    pub fn presence(self, presence: Presence) -> Self {
        Settings { presence, ..self }
    }

    /// With this phase.
    #[must_use]
    pub fn phase(self, phase: Phase) -> Self {
        Settings { phase, ..self }
    }

    /// With this breathing.
    #[must_use]
    pub fn breathing(self, breathing: Rhythm) -> Self {
        Settings { breathing, ..self }
    }

    /// With this heart.
    #[must_use]
    pub fn heart(self, heart: Rhythm) -> Self {
        Settings { heart, ..self }
    }

    /// With these falls.
    #[must_use]
    pub fn falls(self, falls: Falls) -> Self {
        Settings { falls, ..self }
    }

    /// Whether every range is kept.
    ///
    /// # Errors
    ///
    /// The first range that is left.
    pub fn check(&self) -> Result<(), SettingsError> {
        within(Field::Window, self.window.into(), 1, 8192)?;
        within(Field::Blocks, self.blocks.into(), 4, 512)?;
        self.breathing.check(Field::Breathing)?;
        self.heart.check(Field::Heart)
    }

    /// The settings' bytes, in the layout of docs/LAYOUT.md.
    #[must_use]
    pub fn to_bytes(&self) -> [u8; SETTINGS_LEN] {
        let mut out = Writer {
            bytes: [0; SETTINGS_LEN],
            at: 0,
        };
        out.put(self.window.to_le_bytes());
        out.put(self.blocks.to_le_bytes());
        out.put(self.presence.on_permille.to_le_bytes());
        out.put(self.presence.off_permille.to_le_bytes());
        out.put(self.presence.hold.0.to_le_bytes());
        out.put(self.phase.on_ppm.to_le_bytes());
        out.put(self.phase.off_ppm.to_le_bytes());
        out.put(self.phase.hold.0.to_le_bytes());
        for rhythm in [&self.breathing, &self.heart] {
            out.put(rhythm.decim.to_le_bytes());
            out.put(rhythm.rate_hz.to_le_bytes());
            out.put(rhythm.lo_mhz.to_le_bytes());
            out.put(rhythm.hi_mhz.to_le_bytes());
            out.put(rhythm.update_every.to_le_bytes());
            out.put(rhythm.accept_permille.to_le_bytes());
            out.put(rhythm.highpass.to_le_bytes());
        }
        out.put(self.falls.active_permille.to_le_bytes());
        out.put(self.falls.burst_permille.to_le_bytes());
        out.put(self.falls.still_permille.to_le_bytes());
        out.put(self.falls.min_active.0.to_le_bytes());
        out.put(self.falls.quiet_grace.0.to_le_bytes());
        out.put(self.falls.settle.0.to_le_bytes());
        out.put(self.falls.still_for.0.to_le_bytes());
        out.put(self.falls.refractory.0.to_le_bytes());
        out.bytes
    }
}

struct Writer {
    bytes: [u8; SETTINGS_LEN],
    at: usize,
}

impl Writer {
    fn put<const K: usize>(&mut self, number: [u8; K]) {
        self.bytes[self.at..self.at + K].copy_from_slice(&number);
        self.at += K;
    }
}

impl Rhythm {
    fn check(&self, field: fn(RhythmField) -> Field) -> Result<(), SettingsError> {
        let most = u32::MAX.into();
        within(field(RhythmField::Decim), self.decim.into(), 0, 32_767)?;
        within(field(RhythmField::RateHz), self.rate_hz.into(), 1, 1000)?;
        within(field(RhythmField::LoMhz), self.lo_mhz.into(), 1, most)?;
        within(field(RhythmField::HiMhz), self.hi_mhz.into(), 1, most)
    }
}

fn within(field: Field, value: u64, least: u64, most: u64) -> Result<(), SettingsError> {
    if (least..=most).contains(&value) {
        return Ok(());
    }
    Err(SettingsError {
        field,
        value,
        least,
        most,
    })
}

/// A setting that has a range.
#[derive(Debug, Clone, Copy, PartialEq, Eq, Hash)]
#[non_exhaustive]
pub enum Field {
    /// [`Settings::window`]
    Window,
    /// [`Settings::blocks`]
    Blocks,
    /// A part of [`Settings::breathing`]
    Breathing(RhythmField),
    /// A part of [`Settings::heart`]
    Heart(RhythmField),
}

/// A part of a [`Rhythm`] that has a range.
#[derive(Debug, Clone, Copy, PartialEq, Eq, Hash)]
#[non_exhaustive]
pub enum RhythmField {
    /// [`Rhythm::decim`]
    Decim,
    /// [`Rhythm::rate_hz`]
    RateHz,
    /// [`Rhythm::lo_mhz`]
    LoMhz,
    /// [`Rhythm::hi_mhz`]
    HiMhz,
}

impl fmt::Display for Field {
    fn fmt(&self, f: &mut fmt::Formatter<'_>) -> fmt::Result {
        match self {
            Field::Window => write!(f, "window"),
            Field::Blocks => write!(f, "blocks"),
            Field::Breathing(part) => write!(f, "breathing.{part}"),
            Field::Heart(part) => write!(f, "heart.{part}"),
        }
    }
}

impl fmt::Display for RhythmField {
    fn fmt(&self, f: &mut fmt::Formatter<'_>) -> fmt::Result {
        f.write_str(match self {
            RhythmField::Decim => "decim",
            RhythmField::RateHz => "rate_hz",
            RhythmField::LoMhz => "lo_mhz",
            RhythmField::HiMhz => "hi_mhz",
        })
    }
}

/// A setting that left its range.
#[derive(Debug, Clone, Copy, PartialEq, Eq)]
#[non_exhaustive]
pub struct SettingsError {
    /// Which setting.
    pub field: Field,
    /// What it was set to.
    pub value: u64,
    /// The least it may be.
    pub least: u64,
    /// The most it may be.
    pub most: u64,
}

impl fmt::Display for SettingsError {
    fn fmt(&self, f: &mut fmt::Formatter<'_>) -> fmt::Result {
        let SettingsError {
            field,
            value,
            least,
            most,
        } = self;
        write!(f, "{field} is {value} and must be from {least} to {most}")
    }
}

impl Error for SettingsError {}

#[cfg(test)]
mod tests {
    use super::*;

    #[test]
    fn bytes_stand_where_the_layout_says() {
        let bytes = Settings::new(50).to_bytes();
        let at = |at: usize, size: usize| {
            let bytes = bytes[at..at + size].iter().rev();
            bytes.fold(0u64, |value, byte| value << 8 | u64::from(*byte))
        };
        assert_eq!((at(0, 2), at(2, 2)), (50, 128));
        assert_eq!((at(4, 2), at(6, 2), at(8, 8)), (32, 23, 3_000_000));
        assert_eq!((at(16, 4), at(20, 4), at(24, 8)), (380, 260, 3_000_000));
        assert_eq!(
            (at(32, 2), at(34, 4), at(38, 4), at(42, 4)),
            (5, 10, 150, 550)
        );
        assert_eq!((at(46, 2), at(48, 2), at(50, 2)), (10, 400, 0));
        assert_eq!(
            (at(52, 2), at(54, 4), at(58, 4), at(62, 4)),
            (2, 25, 700, 2200)
        );
        assert_eq!((at(66, 2), at(68, 2), at(70, 2)), (25, 400, 25));
        assert_eq!((at(72, 2), at(74, 2), at(76, 2)), (32, 232, 30));
        assert_eq!(
            (at(78, 8), at(86, 8), at(94, 8)),
            (2_000_000, 3_000_000, 3_000_000)
        );
        assert_eq!((at(102, 8), at(110, 8)), (10_000_000, 60_000_000));
    }

    #[test]
    fn check_names_the_range() {
        let settings = Settings::new(50);
        assert_eq!(settings.check(), Ok(()));
        let error = settings.window(8193).check().unwrap_err();
        assert_eq!((error.field, error.value), (Field::Window, 8193));
        assert_eq!(
            error.to_string(),
            "window is 8193 and must be from 1 to 8192"
        );
        let heart = Rhythm {
            hi_mhz: 0,
            ..settings.heart
        };
        let error = settings.heart(heart).check().unwrap_err();
        assert_eq!(error.field, Field::Heart(RhythmField::HiMhz));
        let far = Settings::new(u32::MAX).check().unwrap_err();
        assert_eq!(far.field, Field::Breathing(RhythmField::Decim));
    }
}

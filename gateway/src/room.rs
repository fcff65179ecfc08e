//! A room that owns the unit's memory.

use std::fmt;

use crate::answer::{ANSWER_LEN, Answer};
use crate::ffi;
use crate::record::{RECORD_LEN, Record, Sample, whole_len};
use crate::refusal::Refusal;
use crate::settings::{SETTINGS_LEN, Settings, SettingsError};

/// Where docs/LAYOUT.md has the tag and the baseline's frames in memory. The settings are in front.
const TAG_AT: usize = 118;
const FRAMES_AT: usize = 181;

/// A room: the unit and its memory.
#[derive(Clone)]
pub struct Room {
    memory: Vec<u8>,
    /// Space for answers, kept from run to run.
    space: Vec<u8>,
}

/// What came of a run.
#[derive(Debug, Clone, PartialEq, Eq)]
#[non_exhaustive]
pub struct Run {
    /// One answer a record, in order.
    pub answers: Vec<Answer>,
    /// The bytes of the records that were used. If the last answer is [`Refusal::Record`], the run
    /// ended there and the rest was not used.
    pub used: usize,
}

impl IntoIterator for Run {
    type Item = Answer;
    type IntoIter = std::vec::IntoIter<Answer>;

    fn into_iter(self) -> Self::IntoIter {
        self.answers.into_iter()
    }
}

/// What [`Room::run_into`] wrote.
#[derive(Debug, Clone, Copy, PartialEq, Eq)]
#[non_exhaustive]
pub struct Ran {
    /// The answers written, each [`ANSWER_LEN`] bytes, from the start of the space.
    pub answers: usize,
    /// The bytes of the records that were used.
    pub used: usize,
    /// The space that the next answer needs, if the run ended for want of it: go on with the records
    /// from `used`.
    pub need: Option<usize>,
}

impl Room {
    /// A room just begun.
    ///
    /// # Errors
    ///
    /// The first setting that is out of its range.
    ///
    /// # Panics
    ///
    /// If the unit refuses settings in range: it is then not the one this crate was written for.
    pub fn new(settings: &Settings) -> Result<Room, SettingsError> {
        let mut room = Room {
            memory: Vec::new(),
            space: Vec::new(),
        };
        room.begin(settings)?;
        Ok(room)
    }

    /// Begins again, with the same settings or others. All else is as new.
    ///
    /// # Errors
    ///
    /// The first setting that is out of its range; the room is then as it was.
    ///
    /// # Panics
    ///
    /// As [`Room::new`].
    pub fn begin(&mut self, settings: &Settings) -> Result<(), SettingsError> {
        settings.check()?;
        let bytes = settings.to_bytes();
        let needed = ffi::memory_len(&bytes);
        assert_eq!(needed.refusal, 0, "the unit refuses settings in range");
        self.memory.resize(needed.len, 0);
        let refusal = ffi::begin(&bytes, &mut self.memory);
        assert_eq!(
            refusal, 0,
            "the unit refuses memory of the length it asked for"
        );
        Ok(())
    }

    /// A room from memory that [`Room::memory`] gave: it goes on as that one did.
    ///
    /// ```
    /// use volkjarp::{Room, Sample, Settings};
    ///
    /// let mut room = Room::new(&Settings::new(50))?;
    /// room.calibrate(&Sample::default());
    /// let saved = room.memory().to_vec(); // to a file
    ///
    /// let room = Room::from_memory(saved)?;
    /// assert_eq!(room.calibrated_frames(), 1);
    /// # Ok::<(), Box<dyn std::error::Error>>(())
    /// ```
    ///
    /// # Errors
    ///
    /// [`Refusal::Memory`], if the length does not fit the settings in it, a number is out of its range,
    /// or a sum is not that of its rows.
    pub fn from_memory(memory: impl Into<Vec<u8>>) -> Result<Room, Refusal> {
        let mut room = Room {
            memory: memory.into(),
            space: Vec::new(),
        };
        // a run without records judges the memory and leaves it
        room.run_into(&[], &mut [])?;
        Ok(room)
    }

    /// The unit's memory: all that the room knows, to be kept over a restart of the gateway.
    #[must_use]
    pub fn memory(&self) -> &[u8] {
        &self.memory
    }

    /// The bytes of memory that the unit has.
    #[must_use]
    pub fn memory_len(&self) -> usize {
        self.memory.len()
    }

    /// Whether the room was begun with these settings. They stand in its memory, so a room
    /// [from memory](Room::from_memory) has those that it was saved with.
    #[must_use]
    pub fn has_settings(&self, settings: &Settings) -> bool {
        self.memory[..SETTINGS_LEN] == settings.to_bytes()
    }

    /// The tag of the samples since the last boundary, if there are any.
    #[must_use]
    pub fn tag(&self) -> Option<u8> {
        Some(self.memory[TAG_AT]).filter(|tag| *tag != 0)
    }

    /// The frames in the baseline: those calibrated since the last boundary.
    #[must_use]
    pub fn calibrated_frames(&self) -> u32 {
        let frames = [self.memory[FRAMES_AT], self.memory[FRAMES_AT + 1]];
        u16::from_le_bytes(frames).into()
    }

    /// Judges one sample.
    ///
    /// # Panics
    ///
    /// As [`Room::run`].
    pub fn watch(&mut self, sample: &Sample) -> Answer {
        self.answer(Record::Watch(&sample.to_bytes()))
    }

    /// Takes one sample into the baseline.
    ///
    /// # Panics
    ///
    /// As [`Room::run`].
    pub fn calibrate(&mut self, sample: &Sample) -> Answer {
        self.answer(Record::Calibrate(&sample.to_bytes()))
    }

    /// Forgets all but the settings.
    ///
    /// # Panics
    ///
    /// As [`Room::run`].
    pub fn reset(&mut self) {
        self.answer(Record::Reset);
    }

    /// Answers one record. Nothing is allocated; but each call checks the whole memory, so many
    /// records at a time go through [`Room::run`].
    ///
    /// # Panics
    ///
    /// As [`Room::run`].
    pub fn answer(&mut self, record: Record<'_>) -> Answer {
        let mut space = [0; ANSWER_LEN];
        self.run_into(record.put(&mut [0; RECORD_LEN]), &mut space)
            .expect("the unit takes the memory it left");
        answer(&space, 0)
    }

    /// Answers every record, up to the first that is unknown or cut short.
    ///
    /// # Panics
    ///
    /// If the unit refuses its own memory or answers in bytes that are no answer: the memory was
    /// then overwritten, or the unit is not the one this crate was written for.
    pub fn run(&mut self, records: &[u8]) -> Run {
        let mut space = std::mem::take(&mut self.space);
        // Enough if every record has a sample; a run of many resets goes on below.
        let samples = ANSWER_LEN * (1 + records.len().div_ceil(RECORD_LEN));
        if space.len() < samples {
            space.resize(samples, 0);
        }
        let mut run = Run {
            answers: Vec::with_capacity(samples / ANSWER_LEN),
            used: 0,
        };
        loop {
            let ran = self
                .run_into(&records[run.used..], &mut space)
                .expect("the unit takes the memory it left");
            let written = space.chunks_exact(ANSWER_LEN).take(ran.answers);
            run.answers
                .extend(written.map(|bytes| answer(bytes, run.used)));
            run.used += ran.used;
            match ran.need {
                None => break,
                Some(need) => space.resize(need.max(2 * space.len()), 0),
            }
        }
        self.space = space;
        run
    }

    /// Answers the whole records at the front of a stream that arrives in pieces, and leaves in
    /// `stream` what is behind them, for the next piece to be added to. Positions count from the
    /// front. If the last answer is [`Refusal::Record`], that byte is at the front now and no record
    /// behind it can be told.
    ///
    /// ```
    /// use volkjarp::{Record, Room, Sample, Settings};
    ///
    /// let mut room = Room::new(&Settings::new(50))?;
    /// let mut stream = Vec::new();
    /// for piece in Record::watch(&Sample::default().to_bytes()).to_bytes().chunks(100) {
    ///     stream.extend_from_slice(piece);
    ///     for answer in room.feed(&mut stream) {
    ///         println!("{answer}");
    ///     }
    /// }
    /// # Ok::<(), volkjarp::SettingsError>(())
    /// ```
    ///
    /// # Panics
    ///
    /// As [`Room::run`].
    pub fn feed(&mut self, stream: &mut Vec<u8>) -> Run {
        let run = self.run(&stream[..whole_len(stream)]);
        stream.drain(..run.used);
        run
    }

    /// As [`Room::run`], into the caller's own space, as bytes. Where the space ends, the run ends before the
    /// record that has none, and [`Ran::need`] says what that record's answer needs.
    ///
    /// # Errors
    ///
    /// [`Refusal::Memory`], if the memory was overwritten by something else. Nothing is then changed.
    pub fn run_into(&mut self, records: &[u8], space: &mut [u8]) -> Result<Ran, Refusal> {
        let ran = ffi::run(&mut self.memory, records, space);
        let need = match Refusal::from_number(ran.refusal) {
            None => None,
            Some(Refusal::Space) => Some(ran.need),
            Some(refusal) => return Err(refusal),
        };
        Ok(Ran {
            answers: ran.answers,
            used: ran.used,
            need,
        })
    }
}

/// The answer in these bytes, of a part of a run that starts `before` bytes into it.
fn answer(bytes: &[u8], before: usize) -> Answer {
    let answer = bytes.try_into().ok().and_then(Answer::from_bytes);
    match answer.expect("the unit writes answers") {
        Answer::Refused { number, at } => Answer::Refused {
            number,
            at: at + before as u64,
        },
        answer => answer,
    }
}

impl fmt::Debug for Room {
    fn fmt(&self, f: &mut fmt::Formatter<'_>) -> fmt::Result {
        f.debug_struct("Room")
            .field("memory_len", &self.memory.len())
            .finish_non_exhaustive()
    }
}

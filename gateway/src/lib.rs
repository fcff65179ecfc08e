//! Room sensing from Wi-Fi channel samples: presence, phase, breathing and heart, falls, and a
//! room's fingerprint. The unit behind it is written in Rattle and proved: it ends, stays within its
//! slices and answers by its written definition, whatever bytes it is fed. This crate lends it memory
//! and gives its bytes types.
//!
//! A [`Room`] is begun with [`Settings`]. It learns the empty room from samples to calibrate and
//! judges samples to watch. A reset, or a sample from a radio board with another subcarrier layout,
//! is a boundary: nothing learnt before it counts, and the room says [`Verdict::Warming`] until it
//! has watched a window through that board.
//!
//! ```
//! use volkjarp::{Answer, Room, Sample, Settings, Verdict};
//!
//! # fn radio(tag: u8, k: u64) -> Sample {
//! #     let iq = std::array::from_fn(|place| (place % 40) as i8 + 20);
//! #     Sample { tag, at: k * 20_000, iq, ..Sample::default() }
//! # }
//! let mut room = Room::new(&Settings::new(50))?; // 50 samples a second
//! for k in 0..100 {
//!     room.calibrate(&radio(2, k)); // while no one is there
//! }
//! for k in 100..200 {
//!     if let Answer::Watched { verdict: Verdict::Present, .. } = room.watch(&radio(2, k)) {
//!         println!("taken");
//!     }
//! }
//! assert_eq!((room.tag(), room.calibrated_frames()), (Some(2), 100));
//!
//! // The board is swapped for one that reports as many subcarriers in other places.
//! let answer = room.watch(&radio(3, 200));
//! assert_eq!(answer.to_string(), "watch warming 0 0 0 - - - 0");
//! assert_eq!((room.tag(), room.calibrated_frames()), (Some(3), 0));
//! # Ok::<(), volkjarp::SettingsError>(())
//! ```
//!
//! # Runs of records
//!
//! Many samples at a time are a run of records, each a kind byte and a sample but for a reset. Each
//! has one [`Answer`]; what cannot be accepted is refused by a [`Refusal`] and changes nothing.
//!
//! ```
//! use volkjarp::{Answer, Record, Refusal, Room, Sample, Settings, Verdict};
//!
//! let mut room = Room::new(&Settings::new(50))?;
//! let sample = Sample { tag: 4, ..Sample::default() }.to_bytes();
//!
//! let mut records = Vec::new();
//! Record::Reset.write_to(&mut records);
//! Record::watch(&sample).write_to(&mut records);
//! records.push(7); // no record
//!
//! let run = room.run(&records);
//! assert_eq!(run.answers[0], Answer::Reset);
//! assert!(matches!(run.answers[1], Answer::Watched { verdict: Verdict::Warming, .. }));
//! assert_eq!(run.answers[2], Answer::Refused { number: Refusal::Record, at: 143 });
//! assert_eq!(run.used, 143);
//! # Ok::<(), volkjarp::SettingsError>(())
//! ```
//!
//! [`Room::feed`] takes a stream that arrives in pieces. [`Room::run_into`] writes answers as bytes
//! into space of the caller's own, and [`Answer::from_bytes`] reads them; docs/LAYOUT.md of the
//! repository has the layouts.
//!
//! # Over a restart
//!
//! All that a room knows stands in [`Room::memory`], bytes to be kept in a file.
//! [`Room::from_memory`] goes on from there; bytes that the unit did not leave are refused.
//! `examples/live.rs` is a gateway's loop that does so.
//!
//! # The pair census
//!
//! [`census()`] counts all 65,536 I/Q pairs by amplitude and by sector of the circle: the measure of
//! how evenly a front end fills the scale. `examples/census.rs` draws it.
//!
//! ```
//! use volkjarp::census;
//!
//! let census = census();
//! assert_eq!(census.amplitude.iter().sum::<u32>(), 65_536);
//! assert_eq!((census.amplitude[0], census.amplitude[724]), (1, 1));
//! // Bytes reach -128 but not 128, so the sectors differ.
//! assert_eq!(census.sector, [8129, 8128, 8128, 8255, 8256, 8256, 8256, 8128]);
//! ```
//!
//! # The angle tables
//!
//! [`tables`] makes the arctangents and sines that angles and unit vectors are read from, and the same
//! at four times as many steps.
//!
//! ```
//! use volkjarp::tables;
//!
//! assert_eq!(tables::atan_256()[..3], [0, 41, 81]);
//! assert_eq!(tables::atan_1024()[..9], [0, 10, 20, 31, 41, 51, 61, 71, 81]);
//! ```
//!
//! # How often chance makes a fall
//!
//! [`chance`] says how picky the settings of falls are: of all sequences of wander values out of a
//! few, it counts how many give how many suspected falls.
//!
//! ```
//! use volkjarp::{Falls, Micros, chance};
//!
//! let (falls, choices) = (Falls::default(), [30, 31, 32, 232]);
//! let of = |frames| chance::count(&falls, &choices, Micros::from_secs(1), frames);
//! assert_eq!(of(13)?.fraction(0), (1, 1)); // too short for a fall
//! assert_eq!(of(14)?.counts()[1], 4096); // of 4^14
//! assert_eq!(of(14)?.fraction(1), (1, 65_536));
//! # Ok::<(), chance::OutOfRange>(())
//! ```
//!
//! # Building
//!
//! Programs are linked with the unit's static library, for x86-64 Linux. The build script has it made
//! by the Rattle toolchain, or takes it from the folder that `VOLKJARP_STATICLIB_DIR` names; `cargo
//! check` and `cargo doc` need neither. All unsafe code is the calls into that library, in one module.

#![deny(unsafe_code, unsafe_op_in_unsafe_fn)]
#![warn(missing_docs)]

mod answer;
mod census;
pub mod chance;
#[allow(unsafe_code)]
mod ffi;
mod record;
mod refusal;
mod room;
mod settings;
pub mod tables;

pub use answer::{ANSWER_LEN, Answer, Rate, Verdict};
pub use census::{AMPLITUDES, Census, SECTORS, census};
pub use record::{IQ_LEN, RECORD_LEN, Record, SAMPLE_LEN, Sample, whole_len};
pub use refusal::Refusal;
pub use room::{Ran, Room, Run};
pub use settings::{
    Falls, Field, Micros, Phase, Presence, Rhythm, RhythmField, SETTINGS_LEN, Settings,
    SettingsError,
};

//! Streams made on purpose: a boundary in each state of the room, clocks that go back or stand near
//! their end, refusals, and ends at every length of a record.

use super::{Link, SECOND, SPACING, Scene};
use crate::radar::csi::Verdict;
use crate::radar::csi_stream::{MAX_ENCODED_LEN, TAG_C6_HT20_NATURAL, TAG_HTLTF_20MHZ};
use crate::random::Random;
use crate::room::{Answer, CALIBRATE, MAX_CALIBRATED, PlainRoom, RESET, WATCH, Watched};
use crate::settings::Settings;

/// A state of the room in which a boundary has something to forget.
#[derive(Clone, Copy)]
enum State {
    /// Half of a window's frames.
    HalfWindow,
    /// Frames that fill no block, of breathing and of heart.
    HalfBlock,
    /// A baseline.
    Calibrated,
    /// Presence without motion, for as long as it is held.
    Held,
    /// The states of the fall machine.
    Idle,
    Active,
    Quiet,
    Burst,
    Settling,
    Refractory,
}

const STATES: [State; 10] = [
    State::HalfWindow,
    State::HalfBlock,
    State::Calibrated,
    State::Held,
    State::Idle,
    State::Active,
    State::Quiet,
    State::Burst,
    State::Settling,
    State::Refractory,
];

/// Half of the frames of a window.
const HALF_WINDOW: usize = 25;

/// A link and the room that its records are run through.
struct Followed<'a> {
    link: Link<'a>,
    room: PlainRoom,
    /// The bytes that have been run.
    ran: usize,
}

impl<'a> Followed<'a> {
    fn new(random: &'a mut Random, tag: u8) -> Self {
        let mut link = Link::new(random);
        link.tag = tag;
        let room = PlainRoom::new(Settings::roomlines());
        Followed { link, room, ran: 0 }
    }

    /// The answers to the records since the last time.
    fn answers(&mut self) -> Vec<Answer> {
        let records = &self.link.records[self.ran..];
        self.ran = self.link.records.len();
        self.room.run(records, usize::MAX).0
    }

    fn frames(&mut self, kind: u8, scene: Scene, count: usize) {
        self.link.frames(kind, scene, count);
        self.answers();
    }

    /// Watches frames of one scene, so far apart, until the state and the last answer are as wanted.
    fn until(&mut self, scene: Scene, apart: u64, wanted: impl Fn(&str, &Watched) -> bool) {
        for _ in 0..400 {
            self.link.clock = self.link.clock.wrapping_add(apart - SPACING);
            self.link.frame(WATCH, scene);
            let Some(Answer::Watch(watched)) = self.answers().pop() else {
                continue;
            };
            let fall = self.room.fall_state().unwrap_or_default();
            if wanted(&fall, &watched) {
                return;
            }
        }
        panic!("a state is not reached");
    }

    /// Brings the room to a state, from a boundary on.
    fn reach(&mut self, state: State) {
        match state {
            State::HalfWindow => self.frames(WATCH, Scene::Walk, HALF_WINDOW),
            State::HalfBlock => self.frames(WATCH, Scene::Walk, 2 * HALF_WINDOW + 3),
            State::Calibrated => {
                self.frames(CALIBRATE, Scene::Walk, 4);
                self.frames(WATCH, Scene::Burst, 1);
            }
            State::Held => {
                self.reach(State::Idle);
                self.until(Scene::Walk, SPACING, |_, w| is_present(w));
                self.until(Scene::Still, SPACING, |_, w| {
                    is_present(w) && w.permille < 23 && w.ppm < 260
                });
            }
            State::Idle => {
                self.frames(WATCH, Scene::Still, HALF_WINDOW);
                self.until(Scene::Still, SPACING, |fall, w| {
                    fall == "Idle" && w.verdict == Verdict::Absent
                });
            }
            State::Active => {
                self.reach(State::Idle);
                self.until(Scene::Walk, SPACING, |fall, _| {
                    fall.starts_with("Active") && fall.contains("None")
                });
            }
            State::Quiet => {
                self.reach(State::Active);
                self.until(Scene::Still, SPACING, |fall, _| {
                    fall.starts_with("Active") && fall.contains("Some")
                });
            }
            State::Burst => {
                self.reach(State::Active);
                self.link.clock = self.link.clock.wrapping_add(2 * SECOND);
                self.until(Scene::Burst, SPACING, |fall, _| fall.starts_with("Burst"));
            }
            State::Settling => {
                self.reach(State::Burst);
                self.until(Scene::Still, SPACING, |fall, _| {
                    fall.starts_with("Settling")
                });
            }
            State::Refractory => {
                self.reach(State::Settling);
                self.until(Scene::Still, SECOND, |_, w| w.fall.is_some());
            }
        }
    }

    /// Another board with as many subcarriers: tag 2 for 3, 3 for 2.
    fn swap(&mut self) {
        self.link.tag = TAG_HTLTF_20MHZ + TAG_C6_HT20_NATURAL - self.link.tag;
    }

    /// The last record with one byte of its sample changed, then that record again.
    fn spoil(&mut self, at: usize, byte: u8) {
        let records = &mut self.link.records;
        let last = records[records.len() - 1 - MAX_ENCODED_LEN..].to_vec();
        let mut spoiled = last.clone();
        spoiled[1 + at] = byte;
        records.extend(spoiled);
        records.extend(last);
    }

    /// Samples that are refused, some of another tag: none is a boundary.
    fn refusals(&mut self) {
        for (at, byte) in [
            (0, 0),
            (0, 2),
            (1, 0),
            (1, 5),
            (1, 255),
            (12, 0),
            (12, 127),
            (12, 129),
        ] {
            self.spoil(at, byte);
        }
        self.answers();
    }

    /// Presence and falls with a clock that goes back, to 0, and past its end.
    fn clocks(&mut self) {
        self.reach(State::Active);
        for clock in [
            self.link.clock - SECOND,
            0,
            u64::MAX - SPACING,
            u64::MAX - SECOND,
        ] {
            self.link.clock = clock;
            self.frames(WATCH, Scene::Burst, 3);
            self.frames(WATCH, Scene::Still, 3);
        }
        self.link.clock = u64::MAX - 4 * SECOND;
        self.frames(WATCH, Scene::Burst, 20);
        self.frames(WATCH, Scene::Still, HALF_WINDOW);
    }
}

fn is_present(watched: &Watched) -> bool {
    matches!(watched.verdict, Verdict::Present { .. })
}

/// A boundary in each state, from `tag` on: a swap between the tags 2 and 3, or a reset.
fn boundaries(tag: u8, resets: bool) -> Vec<u8> {
    let random = &mut Random::new(u64::from(tag));
    let mut room = Followed::new(random, tag);
    for state in STATES {
        room.reach(state);
        if resets {
            room.link.records.push(RESET);
        } else {
            room.swap();
        }
    }
    room.frames(WATCH, Scene::Walk, 2 * HALF_WINDOW + 1);
    room.link.records
}

fn clocks(tag: u8) -> Vec<u8> {
    let random = &mut Random::new(u64::from(tag));
    let mut room = Followed::new(random, tag);
    room.clocks();
    room.link.records
}

/// A stream of some nine hundred records that shows each kind of line: `make run` prints its lines. Someone
/// comes in, sits and breathes; then boards are swapped, and someone falls.
pub fn sample() -> Vec<u8> {
    let random = &mut Random::new(2);
    let mut room = Followed::new(random, TAG_HTLTF_20MHZ);
    room.link.records.push(RESET);
    room.frames(CALIBRATE, Scene::Still, 10);
    room.reach(State::Idle);
    room.until(Scene::Walk, SPACING, |_, w| is_present(w));
    room.frames(WATCH, Scene::Walk, 10);
    room.frames(WATCH, Scene::Sitting, 700);
    room.spoil(0, 2);
    room.spoil(1, 9);
    room.swap();
    room.reach(State::Refractory);
    room.link.records.push(0);
    room.link.records
}

/// What is recorded for roomlines: a boundary in each state, refusals, clocks, a reset, breathing and
/// heart, and an end by a record cut short.
pub fn recorded() -> Vec<u8> {
    let mut records = boundaries(TAG_HTLTF_20MHZ, false);
    records.push(RESET);
    records.extend(clocks(TAG_C6_HT20_NATURAL));
    let random = &mut Random::new(1);
    let mut room = Followed::new(random, TAG_HTLTF_20MHZ);
    room.frames(CALIBRATE, Scene::Still, 10);
    room.frames(WATCH, Scene::Sitting, 700);
    room.refusals();
    room.swap();
    room.frames(WATCH, Scene::Rhythm(40), 270);
    records.extend(&room.link.records);
    records.truncate(records.len() - 1);
    records
}

/// A stream that calibrates until no more frames are taken, then swaps boards.
pub fn full() -> Vec<u8> {
    let random = &mut Random::new(1);
    let mut link = Link::new(random);
    link.tag = TAG_HTLTF_20MHZ;
    link.frames(CALIBRATE, Scene::Walk, MAX_CALIBRATED as usize + 2);
    link.frames(WATCH, Scene::Walk, 1);
    link.frames(CALIBRATE, Scene::Walk, 1);
    link.tag = TAG_C6_HT20_NATURAL;
    link.frames(CALIBRATE, Scene::Walk, 2);
    link.records
}

/// A stream cut at every length of its last record, and one with nothing but resets.
fn cuts() -> Vec<Vec<u8>> {
    let random = &mut Random::new(1);
    let mut link = Link::new(random);
    link.frames(WATCH, Scene::Walk, 3);
    let whole = &link.records;
    let mut streams: Vec<Vec<u8>> = (0..=MAX_ENCODED_LEN)
        .map(|cut| whole[..whole.len() - cut].to_vec())
        .collect();
    streams.push(vec![RESET; 100_000]);
    streams
}

/// Every stream made on purpose.
pub fn scripted() -> Vec<Vec<u8>> {
    let mut streams = vec![Vec::new(), sample(), recorded(), full()];
    for tag in [TAG_HTLTF_20MHZ, TAG_C6_HT20_NATURAL] {
        for resets in [false, true] {
            streams.push(boundaries(tag, resets));
        }
        streams.push(clocks(tag));
    }
    streams.extend(cuts());
    streams
}

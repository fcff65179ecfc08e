//! Streams of room records: people who breathe, walk and fall, boards that are swapped, clocks that
//! jump, and records that are damaged, unknown or cut short.

use crate::radar::csi_stream::{MAX_ENCODED_LEN, MAX_IQ, Sample, TAG_C6_HT20_NATURAL};
use crate::radar::csi_stream::{TAG_DENSE_64, TAG_HTLTF_20MHZ, TAG_LLTF_20MHZ};
use crate::random::Random;
use crate::room::{CALIBRATE, RESET, WATCH};
use rusty_esp_core::Micros;

mod scripts;

pub use scripts::{full, recorded, sample, scripted};

const SECOND: u64 = 1_000_000;
/// Microseconds between two frames.
const SPACING: u64 = SECOND / 50;

/// Frames of a breath and of a heartbeat.
const BREATH: u64 = 150;
const BEAT: u64 = 40;

/// The angles of a turn.
const TURN: u64 = 256;
const QUARTER: u64 = TURN / 4;

/// What goes on before the radio.
#[derive(Clone, Copy)]
enum Scene {
    Still,
    /// A rhythm with a period of so many frames.
    Rhythm(u64),
    /// Someone who breathes 20 times a minute, and whose heart beats 75 times.
    Sitting,
    Walk,
    Burst,
    /// Every I/Q byte the same.
    Flat(i8),
    /// One I/Q byte that is not 0.
    Single(usize),
}

/// A link from a board with a tag and a clock: what each I/Q byte reads at rest, how it sways with
/// a rhythm, and the records so far.
struct Link<'a> {
    random: &'a mut Random,
    tag: u8,
    clock: u64,
    sent: u64,
    rest: [i8; MAX_IQ],
    sway: [i8; MAX_IQ],
    records: Vec<u8>,
}

/// A stream of at least `frames` samples.
pub fn stream(random: &mut Random, frames: u64) -> Vec<u8> {
    let mut link = Link::new(random);
    while link.sent < frames {
        match link.random.below(16) {
            0 => link.records.push(RESET),
            1 | 2 => link.swap(),
            3 => link.play(CALIBRATE),
            4 => link.fall(),
            _ => link.play(WATCH),
        }
    }
    link.end();
    link.records
}

/// `frames` samples of one tag to watch, with rising times, in a room that is quiet or in which
/// someone walks.
pub fn steady(random: &mut Random, tag: u8, walking: bool, frames: usize) -> Vec<u8> {
    let mut link = Link::new(random);
    link.tag = tag;
    let scene = if walking { Scene::Walk } else { Scene::Still };
    link.frames(WATCH, scene, frames);
    link.records
}

impl<'a> Link<'a> {
    fn new(random: &'a mut Random) -> Self {
        // Neighbouring entries differ by about the same angle; in some links, by any.
        let step = random.between(0, 10);
        let spread = random.pick(&[4, 4, 4, 256]);
        let mut angle = 0;
        let mut rest = [0; MAX_IQ];
        for entry in rest.chunks_exact_mut(2) {
            angle += step + random.below(spread);
            (entry[0], entry[1]) = (wave(angle + QUARTER), wave(angle));
        }
        let sway = std::array::from_fn(|_| random.between(0, 6) as i8 - 3);
        Link {
            tag: random.between(TAG_LLTF_20MHZ.into(), TAG_DENSE_64.into()) as u8,
            clock: random.below(100 * SECOND),
            sent: 0,
            records: Vec::new(),
            random,
            rest,
            sway,
        }
    }

    /// Another board, most often the one with as many subcarriers.
    fn swap(&mut self) {
        self.tag = match (self.tag, self.random.below(4)) {
            (TAG_HTLTF_20MHZ, 1..) => TAG_C6_HT20_NATURAL,
            (TAG_C6_HT20_NATURAL, 1..) => TAG_HTLTF_20MHZ,
            _ => self
                .random
                .between(TAG_LLTF_20MHZ.into(), TAG_DENSE_64.into()) as u8,
        };
    }

    /// Some frames of one scene, with clocks that jump and records that are damaged among them.
    fn play(&mut self, kind: u8) {
        let scene = self.scene();
        for _ in 0..self.random.pick(&[1, 3, 20, 60, 120, 300, 800]) {
            if self.random.one_in(150) {
                self.jump();
            }
            self.frame(kind, scene);
            if self.random.one_in(60) {
                self.damage();
            }
        }
    }

    fn scene(&mut self) -> Scene {
        match self.random.below(12) {
            0..3 => Scene::Still,
            3..6 => Scene::Rhythm(self.random.between(8, 400)),
            6..9 => Scene::Walk,
            9 => Scene::Burst,
            10 => Scene::Flat(self.random.byte() as i8),
            _ => Scene::Single(self.random.below(MAX_IQ as u64) as usize),
        }
    }

    /// Walking, a burst, then stillness for as long as the default settings ask.
    fn fall(&mut self) {
        self.frames(WATCH, Scene::Walk, 160);
        self.frames(WATCH, Scene::Burst, 40);
        self.frames(WATCH, Scene::Still, 70);
        self.clock = self.clock.wrapping_add(10 * SECOND);
        self.frames(WATCH, Scene::Still, 3);
    }

    fn jump(&mut self) {
        self.clock = match self.random.below(5) {
            0 => self.random.word(),
            1 => self.clock.wrapping_sub(self.random.any_size()),
            2 => u64::MAX - self.random.below(5 * SECOND),
            3 => self.clock.wrapping_sub(SPACING),
            _ => self.clock.wrapping_add(self.random.below(70 * SECOND)),
        };
    }

    fn frames(&mut self, kind: u8, scene: Scene, count: usize) {
        for _ in 0..count {
            self.frame(kind, scene);
        }
    }

    fn frame(&mut self, kind: u8, scene: Scene) {
        self.clock = self.clock.wrapping_add(SPACING);
        self.sent += 1;
        let iq: [i8; MAX_IQ] = std::array::from_fn(|k| self.reading(scene, k));
        let (rssi, channel) = (self.random.byte() as i8, self.random.byte());
        let sample = Sample::from_iq(Micros(self.clock), rssi, channel, self.tag, &iq);
        let mut body = [0; MAX_ENCODED_LEN];
        sample.and_then(|s| s.encode(&mut body)).expect("it fits");
        self.records.push(kind);
        self.records.extend(body);
    }

    /// I/Q byte k of the next frame.
    fn reading(&mut self, scene: Scene, k: usize) -> i8 {
        let random = &mut *self.random;
        match scene {
            Scene::Still => self.rest[k] + i8::from(random.one_in(32)),
            Scene::Rhythm(period) => {
                self.rest[k] + (i32::from(self.sway[k]) * self.height(period) / 64) as i8
            }
            Scene::Sitting => {
                let height = 5 * self.height(BREATH) + 2 * self.height(BEAT);
                self.rest[k] + (i32::from(self.sway[k]) * height / 64) as i8
            }
            Scene::Walk => self.rest[k] + random.below(16) as i8 - 8,
            Scene::Burst => random.byte() as i8,
            Scene::Flat(value) => value,
            Scene::Single(at) => i8::from(k == at) * 100,
        }
    }

    /// How far a rhythm with a period of so many frames is from its middle.
    fn height(&self, period: u64) -> i32 {
        i32::from(wave(self.sent % period * TURN / period))
    }

    /// The last record once more with a header that is refused, of this or another tag.
    fn damage(&mut self) {
        let start = self.records.len() - 1 - MAX_ENCODED_LEN;
        let mut record = self.records[start..].to_vec();
        let header = &mut record[1..];
        if self.random.one_in(2) {
            header[1] = self.random.below(8) as u8;
        }
        match self.random.below(3) {
            0 => header[0] = self.random.byte(),
            1 => header[12] = self.random.byte(),
            _ => header[1] = self.random.pick(&[0, 5, 6, 128, 255]),
        }
        self.records.extend(record);
    }

    /// Half the streams end in a record that ends them: of an unknown kind, or cut short.
    fn end(&mut self) {
        match self.random.below(4) {
            0 => {
                let kind = self.random.pick(&[0, 4, 5, 7, 128, 255]);
                self.records.push(kind);
                self.frame(WATCH, Scene::Still);
            }
            1 => {
                self.frame(WATCH, Scene::Still);
                let cut = self.random.between(1, MAX_ENCODED_LEN as u64) as usize;
                self.records.truncate(self.records.len() - cut);
            }
            _ => {}
        }
    }
}

/// A wave between -64 and 64 with straight sides.
fn wave(angle: u64) -> i8 {
    let from_half = (angle % TURN).abs_diff(TURN / 2);
    (from_half as i32 - QUARTER as i32) as i8
}

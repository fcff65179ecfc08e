//! A case is a run of a detector over a window. Its bytes: the window (2), the memory's length (4),
//! two thresholds and the hold (8), low bytes first; then frames: how often (2), count (1), time (8),
//! which grows by 1 from one to the next, and the entries (2 each), none where the count is above 64.
//! In place of a count, 255 is a reset and 254 damages a carried sum.
//!
//! Its line: `new REFUSAL`, then for each frame ` TAG MOTION WANDER` of its last push, or
//! ` refused NUMBER`, and for each reset ` reset REFUSAL`. The Rust refuses nothing: the numbers are
//! document 01's.

use oracle::detectors::Detector;
use oracle::frames::{COLUMNS, Frame};
use oracle::kinds::{self, Config, Kind, LONGEST};
use oracle::random::Random;

use super::Cases;

const RESET: u8 = 255;
const DAMAGE: u8 = 254;

/// A frame, or what stands in place of one.
pub struct Item<E> {
    times: u16,
    count: u8,
    time: u64,
    entries: Vec<E>,
}

impl<E: Copy + Default + Into<i32>> Item<E> {
    fn new(count: u8, time: u64, entries: Vec<E>) -> Self {
        Item {
            times: 1,
            count,
            time,
            entries,
        }
    }

    /// A frame of one column, so many times.
    pub fn single(entry: E, times: u16) -> Self {
        Item {
            times,
            ..Item::new(1, 7, vec![entry])
        }
    }

    fn bytes(&self) -> Vec<u8> {
        let mut bytes = self.times.to_le_bytes().to_vec();
        bytes.push(self.count);
        bytes.extend(self.time.to_le_bytes());
        for &entry in &self.entries {
            bytes.extend((entry.into() as u16).to_le_bytes());
        }
        bytes
    }

    /// Each of the pushes.
    fn frames(&self) -> impl Iterator<Item = Frame<E>> {
        let times = (0..self.times).map(|i| self.time.wrapping_add(i.into()));
        times.map(|time| Frame::of(&self.entries, time))
    }
}

pub struct Run<K: Kind> {
    w: usize,
    memory: usize,
    config: Config<K::Level>,
    items: Vec<Item<K::Entry>>,
}

impl<K: Kind> Run<K> {
    pub fn new(w: usize, config: Config<K::Level>, items: Vec<Item<K::Entry>>) -> Self {
        Run {
            w,
            memory: 2 * w * COLUMNS,
            config,
            items,
        }
    }

    fn bytes(&self) -> Vec<u8> {
        let mut bytes = (self.w as u16).to_le_bytes().to_vec();
        bytes.extend((self.memory as u32).to_le_bytes());
        for threshold in [self.config.on, self.config.off] {
            bytes.extend(&threshold.into().to_le_bytes()[..size_of::<K::Level>()]);
        }
        bytes.extend(self.config.hold.to_le_bytes());
        bytes.extend(self.items.iter().flat_map(Item::bytes));
        bytes
    }

    /// Document 01's number for a call, `damaged` or not.
    fn refusal(&self, damaged: bool, count: u8) -> u8 {
        if !(1..=LONGEST).contains(&self.w) {
            1
        } else if self.memory != 2 * self.w * COLUMNS || damaged {
            2
        } else if usize::from(count) > COLUMNS {
            7
        } else {
            0
        }
    }

    fn line(&self) -> String {
        let mut line = format!("new {}", self.refusal(false, 0));
        let mut rust = (self.refusal(false, 0) == 0).then(|| K::detector(self.w, self.config));
        let mut damaged = false;
        for item in &self.items {
            match item.count {
                DAMAGE => damaged = true,
                RESET => {
                    let refusal = self.refusal(damaged, 0);
                    if refusal == 0 {
                        rust.as_mut().unwrap().reset();
                    }
                    line += &format!(" reset {refusal}");
                }
                count => match self.refusal(damaged, count) {
                    0 => line += &answer::<K>(&mut **rust.as_mut().unwrap(), item),
                    refusal => line += &format!(" refused {refusal}"),
                },
            }
        }
        line
    }
}

fn answer<K: Kind>(rust: &mut dyn Detector<K::Frame, K::Level>, item: &Item<K::Entry>) -> String {
    let answers = item.frames().map(|frame| kinds::push::<K>(rust, &frame));
    let (tag, motion, wander) = answers.last().unwrap();
    format!(" {tag} {motion} {wander}")
}

/// What the values of a kind are chosen from.
pub struct Choices<'a, K: Kind> {
    pub on: &'a [K::Level],
    pub off: &'a [K::Level],
    pub noises: &'a [u64],
    pub levels: &'a [K::Entry],
    /// A level with some noise.
    pub entry: fn(K::Entry, u64) -> K::Entry,
}

/// Window sizes and memory lengths that do not fit, with a count that does not either.
fn refused<K: Kind>() -> Vec<Run<K>> {
    let items = || {
        vec![
            Item::new(65, 0, vec![]),
            Item::new(3, 1, [1, 2, 3].map(K::Entry::from).into()),
            Item::new(RESET, 0, vec![]),
            Item::new(0, 2, vec![]),
        ]
    };
    let sizes = [
        (0, 0),
        (0, 128),
        (LONGEST + 1, 1 << 20),
        (65_535, 0),
        (1, 0),
        (1, 127),
        (1, 129),
        (5, 0),
        (5, 639),
        (5, 641),
        (50, 6272),
        (LONGEST, (1 << 20) - 1),
        (1, 128),
        (5, 640),
    ];
    let run = |(w, memory)| Run {
        memory,
        ..Run::new(w, K::DEFAULT, items())
    };
    sizes.map(run).into()
}

/// Thresholds, some equal, crossed or at an end of their range.
fn config<K: Kind>(random: &mut Random, choices: &Choices<K>) -> Config<K::Level> {
    let on = random.pick(choices.on);
    let off = match random.below(3) {
        0 => on,
        _ => random.pick(choices.off),
    };
    let hold = random.pick(&[0, 3, 40, 1000, u64::MAX]);
    Config { on, off, hold }
}

/// A room whose noise, count and clock change now and then.
fn room<K: Kind>(
    random: &mut Random,
    choices: &Choices<K>,
    w: usize,
    columns: &[u8],
    frames: usize,
) -> Run<K> {
    let config = config(random, choices);
    let (mut count, mut time) = (random.pick(columns), random.below(1000));
    let mut noise = random.pick(choices.noises);
    let level = random.pick(choices.levels);
    let mut items = Vec::new();
    for i in 0..frames {
        if random.one_in(12) {
            count = random.pick(columns);
        }
        if random.one_in(7) {
            noise = random.pick(choices.noises);
        }
        time = match random.below(12) {
            0 => random.any_size(),
            1 => time.wrapping_sub(random.below(60)),
            _ => time.wrapping_add(random.below(30)),
        };
        match random.below(40) {
            0 => items.push(Item::new(RESET, 0, vec![])),
            1 => items.push(Item::new(0, time, vec![])),
            2 => items.push(Item::new(random.pick(&[65, 253]), time, vec![])),
            _ => {}
        }
        let entry = |_| (choices.entry)(level, random.below(noise));
        items.push(Item::new(count, time, (0..count).map(entry).collect()));
        if i + 3 == frames && random.one_in(3) {
            items.push(Item::new(DAMAGE, 0, vec![]));
        }
    }
    Run::new(w, config, items)
}

/// The bench runs, those refused, and rooms.
pub fn cases<K: Kind>(bench: Vec<Run<K>>, choices: &Choices<K>) -> Cases {
    let random = &mut Random::new(1);
    let mut runs = bench;
    runs.extend(refused());
    for w in [1, 2, 3, 5] {
        for _ in 0..8 {
            runs.push(room(random, choices, w, &[1, 2, 3, 8], 40));
        }
        runs.push(room(random, choices, w, &[52, 56, 64], 24));
    }
    for _ in 0..3 {
        runs.push(room(random, choices, 50, &[1, 2], 160));
    }
    runs.push(room(random, choices, 50, &[56], 110));
    let mut cases = Cases::default();
    for run in runs {
        cases.add(&run.bytes(), &run.line());
    }
    cases
}

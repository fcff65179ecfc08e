//! Lists of calls on one unit's memory, and the plain room's replies to them.

use std::fmt;

use crate::layout::{ANSWER_LEN, memory_len, settings_from_bytes, settings_to_bytes};
use crate::random::Random;
use crate::refusals;
use crate::room::{self, Answer, PlainRoom, RECORD_LEN, Return};
use crate::settings::Settings;
use crate::streams::stream;

#[derive(Clone)]
pub enum Call {
    /// Settings, and how much of the memory is lent.
    Begin { settings: Vec<u8>, memory: usize },
    /// Records, how many bytes there are for answers, and how much of the memory is lent.
    Run {
        records: Vec<u8>,
        space: usize,
        memory: usize,
    },
}

#[derive(Debug, PartialEq, Eq)]
pub enum Reply {
    /// The refusal, or 0.
    Begin(u8),
    Run(Vec<Answer>, Return),
}

/// The plain room of a unit, and how much of the memory it was begun with.
pub struct Plain {
    room: PlainRoom,
    memory: usize,
}

impl Plain {
    /// A beginning, or its refusal.
    pub fn begin(settings: &[u8], memory: usize) -> Result<Plain, u8> {
        let room = PlainRoom::begin(settings, memory)?;
        Ok(Plain { room, memory })
    }

    /// What the unit must reply.
    pub fn reply(&mut self, call: &Call) -> Reply {
        match call {
            Call::Begin { settings, memory } => match Plain::begin(settings, *memory) {
                Ok(plain) => {
                    *self = plain;
                    Reply::Begin(0)
                }
                Err(refusal) => Reply::Begin(refusal),
            },
            Call::Run { memory, .. } if *memory != self.memory => {
                let end = Return {
                    refusal: refusals::MEMORY,
                    need: 0,
                    answers: 0,
                    used: 0,
                };
                Reply::Run(Vec::new(), end)
            }
            Call::Run { records, space, .. } => {
                let (answers, end) = self.room.run(records, *space);
                Reply::Run(answers, end)
            }
        }
    }
}

/// A host with one unit. It makes up calls, the first an accepted beginning, and knows the replies.
pub struct Host {
    plain: Plain,
    settings: Settings,
    /// What the radio has delivered and no run has used.
    records: Vec<u8>,
}

impl Host {
    /// A host, and the call that begins its unit.
    pub fn new(random: &mut Random) -> (Host, Call) {
        let settings = Settings::random(random);
        let memory = memory_len(&settings);
        let host = Host {
            plain: Plain {
                room: PlainRoom::new(settings),
                memory,
            },
            settings,
            records: Vec::new(),
        };
        let settings = settings_to_bytes(&settings);
        (host, Call::Begin { settings, memory })
    }

    /// The next call.
    pub fn call(&mut self, random: &mut Random) -> Call {
        if random.one_in(16) {
            self.beginning(random)
        } else {
            self.run(random)
        }
    }

    /// What the unit must reply. A host goes on with the records that a run has not used.
    pub fn reply(&mut self, call: &Call) -> Reply {
        let reply = self.plain.reply(call);
        match (call, &reply) {
            (Call::Begin { settings, .. }, Reply::Begin(0)) => {
                self.settings = settings_from_bytes(settings).unwrap();
            }
            (Call::Run { .. }, Reply::Run(_, end)) => drop(self.records.drain(..end.used)),
            _ => {}
        }
        reply
    }

    /// A beginning with new thresholds, with other sizes and their memory, with settings refused,
    /// or with memory of another length.
    fn beginning(&self, random: &mut Random) -> Call {
        let other = Settings::random(random);
        let settings = match random.below(5) {
            0 | 1 => other,
            2 => Settings::out_of_range(random),
            _ => Settings {
                w: self.settings.w,
                n: self.settings.n,
                ..other
            },
        };
        let memory = match random.below(8) {
            0 => self.other_length(random),
            1 => self.plain.memory,
            _ => memory_len(&settings),
        };
        let mut settings = settings_to_bytes(&settings);
        if random.one_in(8) {
            settings.truncate(random.below(settings.len() as u64) as usize);
        }
        Call::Begin { settings, memory }
    }

    fn other_length(&self, random: &mut Random) -> usize {
        match random.below(4) {
            0 => self.plain.memory - 1,
            1 => self.plain.memory + 1,
            2 => memory_len(&Settings::random(random)),
            _ => random.below(self.plain.memory as u64) as usize,
        }
    }

    /// A run over the next records, now and then cut inside one, with space for all or for few.
    fn run(&mut self, random: &mut Random) -> Call {
        if self.records.is_empty() || random.one_in(16) {
            self.records = stream(random, 20);
            if random.one_in(3) {
                self.records = with_boundaries(random, &self.records);
            }
        }
        let most = self.records.len();
        let length = match random.below(8) {
            0 => random.below(most as u64 + 1) as usize,
            1 => most,
            2 => random.below(40) as usize * RECORD_LEN,
            _ => random.below(10) as usize * RECORD_LEN,
        };
        let space = match random.below(3) {
            0 => random.below(20 * ANSWER_LEN as u64) as usize,
            _ => most * ANSWER_LEN,
        };
        Call::Run {
            records: self.records[..length.min(most)].to_vec(),
            space,
            memory: if random.one_in(32) {
                self.other_length(random)
            } else {
                self.plain.memory
            },
        }
    }
}

/// The records with resets and other tags strewn in.
fn with_boundaries(random: &mut Random, records: &[u8]) -> Vec<u8> {
    let every = random.pick(&[2, 10, 50]);
    let mut out = Vec::new();
    let mut tag = None;
    for record in cut(records) {
        if random.one_in(every) {
            match random.below(3) {
                0 => out.push(room::RESET),
                _ => tag = Some(random.between(1, 4) as u8),
            }
        }
        let start = out.len();
        out.extend(record);
        if let (Some(tag), Some(place)) = (tag, out.get_mut(start + 2)) {
            *place = tag;
        }
    }
    out
}

/// Records of a run that are shown.
const SHOWN: usize = 30;

/// A call to read: settings, and records in hexadecimal, one a line.
impl fmt::Display for Call {
    fn fmt(&self, f: &mut fmt::Formatter<'_>) -> fmt::Result {
        match self {
            Call::Begin { settings, memory } => {
                write!(f, "begin: {memory} bytes of memory, ")?;
                match settings_from_bytes(settings) {
                    Some(settings) => write!(f, "{settings:?}"),
                    None => write!(f, "{} bytes of settings", settings.len()),
                }
            }
            Call::Run {
                records,
                space,
                memory,
            } => {
                write!(f, "run: {memory} bytes of memory, {space} for answers")?;
                let records = cut(records);
                for record in records.iter().take(SHOWN) {
                    write!(f, "\n    ")?;
                    record.iter().try_for_each(|byte| write!(f, "{byte:02x}"))?;
                }
                match records.len().checked_sub(SHOWN + 1) {
                    Some(more) => write!(f, "\n    and {} more", more + 1),
                    None => Ok(()),
                }
            }
        }
    }
}

/// The records one by one; what ends a run is the last.
pub fn cut(records: &[u8]) -> Vec<&[u8]> {
    let mut parts = Vec::new();
    let mut rest = records;
    while let Some(kind) = rest.first() {
        let length = match *kind {
            room::WATCH | room::CALIBRATE => RECORD_LEN.min(rest.len()),
            room::RESET => 1,
            _ => rest.len(),
        };
        let (record, behind) = rest.split_at(length);
        parts.push(record);
        rest = behind;
    }
    parts
}

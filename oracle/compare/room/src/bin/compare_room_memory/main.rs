//! Runs on memory that was tampered with: `compare_room_memory [seed] [attempts]`.
//!
//! From memories that the unit left, bytes are changed, lengths, sizes and rows. Each run must
//! answer 2 and change nothing lent just if the memory is out of the ranges of docs/LAYOUT.md, as
//! `oracle::memory` reads them. Every slice is lent between guard pages.

mod edges;

use std::process::ExitCode;

use compare_room::unit::{Guarded, REFUSED, Ran};
use edges::{Change, edges, replace};
use oracle::argument;
use oracle::detectors::{BLOCKS, WINDOWS};
use oracle::layout::{ANSWER_LEN, SETTINGS_LEN, answer_to_bytes, memory_len};
use oracle::layout::{settings_from_bytes, settings_to_bytes};
use oracle::lent;
use oracle::memory::{self as at, COLUMNS, ROW_LEN, ROWS, legal, number, put};
use oracle::radar::csi_stream::MAX_IQ;
use oracle::random::Random;
use oracle::refusals::FULL;
use oracle::room::{Answer, CALIBRATE, MAX_CALIBRATED, PlainRoom, RESET, WATCH};
use oracle::samples;
use oracle::settings::Settings;
use oracle::streams::stream;

fn main() -> ExitCode {
    lent::say_what_was_touched();
    let (seed, wanted) = (argument(1, 1), argument(2, 1_000_000));
    println!("room memory: seed {seed}");
    let mut bench = Bench {
        unit: Guarded::default(),
        random: Random::new(seed),
        refused: 0,
        taken: 0,
    };
    let mut memories = 0;
    while bench.refused + bench.taken < wanted {
        memories += 1;
        lent::now(memories);
        if let Err(why) = bench.memory(memories) {
            println!("room memory: memory {memories} of seed {seed}: {why}");
            return ExitCode::FAILURE;
        }
    }
    let Bench { refused, taken, .. } = bench;
    let attempts = refused + taken;
    println!(
        "room memory: {memories} memories, {attempts} attempts ({refused} refused, {taken} taken), 0 differences"
    );
    ExitCode::SUCCESS
}

struct Bench {
    unit: Guarded,
    random: Random,
    refused: u64,
    taken: u64,
}

impl Bench {
    /// One memory that the unit left, and what can be done to it.
    fn memory(&mut self, turn: u64) -> Result<(), String> {
        let good = self.good()?;
        self.attempt("as it was left", &good)?;
        self.bytes(&good, turn <= 3)?;
        self.edges(&good)?;
        self.rows(&good)?;
        self.sizes(&good)
    }

    fn good(&mut self) -> Result<Vec<u8>, String> {
        let random = &mut self.random;
        let settings = Settings {
            w: random.pick(&[1, 1, 2, 2, 3, 3, 5, 8, 50]),
            n: random.pick(&[4, 4, 4, 5, 8, 16]),
            ..Settings::random(random)
        };
        let mut memory = random.bytes(memory_len(&settings));
        let refusal = self.unit.begin(&settings_to_bytes(&settings), &mut memory);
        if refusal != 0 {
            return Err(format!(
                "a beginning was refused by {refusal}: {settings:?}"
            ));
        }
        if !random.one_in(10) {
            let mut records = stream(random, 20);
            records.truncate(random.below(1 + records.len() as u64) as usize);
            let mut space = vec![0; ANSWER_LEN * (1 + records.len())];
            let ran = self.unit.run(&mut memory, &records, &mut space);
            if ran.refusal != 0 {
                return Err(format!("a run ended with {ran:?}: {settings:?}"));
            }
        }
        match legal(&memory) {
            true => Ok(memory),
            false => Err(format!("the unit left memory out of range: {settings:?}")),
        }
    }

    /// Every byte of the header.
    fn bytes(&mut self, good: &[u8], every_bit: bool) -> Result<(), String> {
        for place in 0..ROWS {
            let small = place < at::SUMS;
            let any = self.random.below(8);
            for bit in 0..8 {
                if small || every_bit || bit == any {
                    self.byte(good, place, good[place] ^ 1 << bit)?;
                }
            }
            for _ in 0..if small { 3 } else { 1 } {
                let value = self.random.byte();
                self.byte(good, place, value)?;
            }
        }
        Ok(())
    }

    fn byte(&mut self, good: &[u8], at: usize, value: u8) -> Result<(), String> {
        let (size, value) = (1, value.into());
        self.changed(good, &[Change { at, size, value }])
    }

    /// Numbers at and beside the ends of their ranges, one by one and some together.
    fn edges(&mut self, good: &[u8]) -> Result<(), String> {
        let edges = edges(good, &mut self.random);
        for edge in &edges {
            self.changed(good, &[*edge])?;
        }
        for _ in 0..200 {
            let some: Vec<Change> = (0..self.random.between(2, 4))
                .map(|_| self.random.pick(&edges))
                .collect();
            self.changed(good, &some)?;
        }
        Ok(())
    }

    /// Entries of rows alone, with their sums or with one of them; rows that change places.
    fn rows(&mut self, good: &[u8]) -> Result<(), String> {
        let settings = settings_from_bytes(&good[..SETTINGS_LEN]).unwrap();
        let w = u64::from(settings.w);
        for _ in 0..200 {
            let place = self.random.between(ROWS as u64, good.len() as u64 - 1) as usize;
            let bit = self.random.below(8);
            self.byte(good, place, good[place] ^ 1 << bit)?;
        }
        for _ in 0..100 {
            let mut memory = good.to_vec();
            let kept = self.random.below(4);
            for _ in 0..self.random.between(1, 3) {
                let row = self.random.below(2 * w) as usize;
                let column = self.random.below(COLUMNS as u64) as usize;
                let value = self.random.any_size() as u16;
                replace(&mut memory, w as usize, row, column, value, kept);
            }
            self.attempt("entries with their sums", &memory)?;
            let mut memory = good.to_vec();
            let [one, other] = [(); 2].map(|()| ROWS + ROW_LEN * self.random.below(2 * w) as usize);
            for k in 0..ROW_LEN {
                memory.swap(one + k, other + k);
            }
            self.attempt("rows that changed places", &memory)?;
        }
        Ok(())
    }

    /// Other lengths, settings of other sizes, and memory that was never begun.
    fn sizes(&mut self, good: &[u8]) -> Result<(), String> {
        let mut lengths = vec![
            0,
            1,
            2,
            4,
            117,
            118,
            119,
            202,
            ROWS - 1,
            ROWS,
            good.len() - 1,
        ];
        lengths.extend([
            good.len() + 1,
            good.len() + ROW_LEN,
            good.len() + 2 * ROW_LEN,
        ]);
        lengths.extend((0..30).map(|_| self.random.below(2 * good.len() as u64) as usize));
        for length in lengths {
            let mut memory = good.to_vec();
            memory.resize(length, 0);
            self.attempt("another length", &memory)?;
        }
        let mut settings = settings_from_bytes(&good[..SETTINGS_LEN]).unwrap();
        let (w, n) = (settings.w, settings.n);
        for _ in 0..30 {
            settings.w = self.random.between(1, u64::from(w) + 3) as u16;
            settings.n = match self.random.below(2) {
                0 => (w + n).saturating_sub(settings.w),
                _ => self.random.between(4, u64::from(n) + 3) as u16,
            };
            let mut memory = good.to_vec();
            memory[..SETTINGS_LEN].copy_from_slice(&settings_to_bytes(&settings));
            if self.random.one_in(2) {
                memory.resize(memory_len(&settings), 0);
            }
            self.attempt("another W and N", &memory)?;
        }
        for kept in [0, SETTINGS_LEN, ROWS] {
            let mut memory = good.to_vec();
            for fill in [0, 255, self.random.byte()] {
                memory[kept..].fill(fill);
                self.attempt("never begun", &memory)?;
            }
            memory.truncate(kept);
            memory.extend(self.random.bytes(good.len() - kept));
            self.attempt("never begun", &memory)?;
        }
        Ok(())
    }

    fn changed(&mut self, good: &[u8], changes: &[Change]) -> Result<(), String> {
        let mut memory = good.to_vec();
        for change in changes {
            put(&mut memory, change.at, change.size, change.value);
        }
        let found = self.attempt("changed", &memory);
        found.map_err(|why| format!("{why}\n  changes {changes:?}"))
    }

    /// A run of none or one record on this memory.
    fn attempt(&mut self, what: &str, before: &[u8]) -> Result<(), String> {
        let records = record(&mut self.random, before);
        let space = self.random.pick(&[0, 1, 23, 24, 24, 24, 24, 25, 48]);
        let blank = vec![self.random.byte(); space];
        let (mut memory, mut answers) = (before.to_vec(), blank.clone());
        let ran = self.unit.run(&mut memory, &records, &mut answers);
        let taken = legal(before);
        let found = match taken {
            true => judge(before, &memory, &records, &blank, &answers, ran),
            false if ran != REFUSED => Err(format!("refused by 2 is due, ours {ran:?}")),
            false if memory != before => Err("2 changed the memory".into()),
            false if answers != blank => Err("2 changed the answer space".into()),
            false => Ok(()),
        };
        self.taken += u64::from(taken);
        self.refused += u64::from(!taken);
        found.map_err(|why| {
            let header = &before[..before.len().min(at::SUMS)];
            format!("{what}: {why}\n  records {records:02x?}\n  header {header:02x?}")
        })
    }
}

/// A run on memory in range: its counts, its refusals, what it leaves.
fn judge(
    before: &[u8],
    after: &[u8],
    records: &[u8],
    blank: &[u8],
    answers: &[u8],
    ran: Ran,
) -> Result<(), String> {
    // A room just begun refuses the same records, but for a baseline that is full; behind a boundary
    // it gives the same answers.
    let mut settings = settings_from_bytes(&before[..SETTINGS_LEN]).unwrap();
    let built = WINDOWS.contains(&settings.w.into()) && BLOCKS.contains(&settings.n.into());
    if !built {
        (settings.w, settings.n) = (1, 4);
    }
    let mut plain = PlainRoom::new(settings);
    let (mut due, end) = plain.run(records, blank.len());
    if ran != Ran::from(end) {
        return Err(format!("{:?} is due, ours {ran:?}", Ran::from(end)));
    }
    let full = number(before, at::BASELINE + 8, 2) == u64::from(MAX_CALIBRATED);
    let boundary = is_boundary(before[at::TAG], records);
    if let [Answer::Calibrate { .. }] = due[..]
        && full
        && !boundary
    {
        due = vec![Answer::Refused {
            number: FULL,
            at: 0,
        }];
    }
    let written = ANSWER_LEN * due.len();
    if answers[written..] != blank[written..] {
        return Err("bytes past the answers changed".into());
    }
    match due.first() {
        None if after != before => Err("no record, and the memory changed".into()),
        Some(refused @ Answer::Refused { .. }) => {
            if answers[..ANSWER_LEN] != answer_to_bytes(refused) {
                return Err(format!("{refused:?} is due, ours {answers:02x?}"));
            }
            match after == before {
                true => Ok(()),
                false => Err("a refused record changed the memory".into()),
            }
        }
        Some(_) if !legal(after) => Err("the run left memory out of range".into()),
        Some(answer) => {
            match !(built && boundary) || answers[..ANSWER_LEN] == answer_to_bytes(answer) {
                true => Ok(()),
                false => Err(format!("{answer:?} is due, ours {answers:02x?}")),
            }
        }
        None => Ok(()),
    }
}

/// A reset is a boundary, and a sample of another tag than the memory's; tag 0 is none yet.
fn is_boundary(tag: u8, record: &[u8]) -> bool {
    record.get(2).is_none_or(|its| tag != 0 && *its != tag)
}

/// Nothing, or a record: most often one that is accepted, most often of the memory's own tag.
fn record(random: &mut Random, memory: &[u8]) -> Vec<u8> {
    let kind = match random.below(10) {
        0 => return Vec::new(),
        1 => return vec![RESET],
        2 => return vec![random.byte()],
        3 | 4 => CALIBRATE,
        _ => WATCH,
    };
    let mut body = samples::legal(random, MAX_IQ);
    body[1] = match memory.get(at::TAG) {
        Some(tag @ 1..=4) if random.below(4) > 0 => *tag,
        _ => random.between(1, 4) as u8,
    };
    if random.one_in(8) {
        body = samples::damaged(random, body);
        body.truncate(141);
    }
    [vec![kind], body].concat()
}

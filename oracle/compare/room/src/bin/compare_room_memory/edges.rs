//! What is written over a memory: the ends of ranges, and entries with their sums.

use oracle::layout::{SETTINGS_LEN, settings_from_bytes};
use oracle::memory::{self as at, COLUMNS, ROW_LEN, ROWS, number, put};
use oracle::radar::vitals::VitalsConfig;
use oracle::random::Random;
use oracle::settings::Settings;
use oracle::vectors::unit_vector;

/// A number written over a part of the memory.
#[derive(Debug, Clone, Copy)]
pub struct Change {
    pub at: usize,
    pub size: usize,
    pub value: u64,
}

/// The ends of every range of docs/LAYOUT.md, and what lies beyond them.
pub fn edges(memory: &[u8], random: &mut Random) -> Vec<Change> {
    let settings = settings_from_bytes(&memory[..SETTINGS_LEN]).unwrap();
    let mut edges = Edges(Vec::new());
    edges.of_settings(&settings);
    edges.of_detectors(settings.w.into());
    let column = random.below(COLUMNS as u64) as usize;
    for (start, totals, config) in [
        (at::BREATHING, at::BREATHING_TOTALS, settings.breathing),
        (at::HEART, at::HEART_TOTALS, settings.heart),
    ] {
        edges.of_rhythm(start, settings.n.into(), &config);
        let most = 65_535 * number(memory, start + 5, 2);
        edges.add(totals + 4 * column, 4, &[0, most, most + 1, u64::MAX]);
    }
    let most = number(memory, at::BASELINE + 8, 2) * u64::from(u32::MAX);
    edges.add(at::BASELINE, 8, &[0, most, most + 1, u64::MAX]);
    edges.add(at::BASELINE + 8, 2, &[0, 1, 65_534, 65_535]);
    edges.add(at::FALLS, 1, &[0, 1, 2, 3, 4, 5, 6, 255]);
    edges.add(at::FALLS + 1, 2, &[0, 1, 65_535]);
    edges.add(at::FALLS + 3, 8, &[0, 1, u64::MAX]);
    edges.add(at::FALLS + 11, 8, &[0, 1, u64::MAX]);
    edges.0
}

struct Edges(Vec<Change>);

impl Edges {
    fn add(&mut self, at: usize, size: usize, values: &[u64]) {
        let changes = values.iter().map(|&value| Change { at, size, value });
        self.0.extend(changes);
    }

    fn of_settings(&mut self, settings: &Settings) {
        let (w, n) = (u64::from(settings.w), u64::from(settings.n));
        self.add(0, 2, &[0, w - 1, w + 1, 8192, 8193, 65_535]);
        self.add(2, 2, &[0, 3, n + 1, 512, 513, 65_535]);
        for start in [32, 52] {
            self.add(start, 2, &[0, 1, 32_767, 32_768, 65_535]);
            self.add(start + 2, 4, &[0, 1, 1000, 1001, 65_537, u64::MAX]);
            self.add(start + 6, 4, &[0, 1, u64::MAX]);
            self.add(start + 10, 4, &[0, 1, u64::MAX]);
            self.add(start + 14, 2, &[0, 1, 2, 65_535]);
        }
    }

    fn of_detectors(&mut self, w: u64) {
        self.add(at::TAG, 1, &[0, 1, 2, 3, 4, 5, 255]);
        let detectors = [(at::PRESENCE, at::MOST_PERMILLE), (at::PHASE, at::MOST_PPM)];
        for (start, most) in detectors {
            self.add(start, 1, &[0, 1, 64, 65, 255]);
            self.add(start + 1, 2, &[0, w - 1, w, w + 1, 65_535]);
            self.add(start + 3, 2, &[0, w - 1, w, 65_535]);
            self.add(start + 5, 4, &[0, most, most + 1, u64::MAX]);
            self.add(start + 9, 1, &[0, 1, 2, 255]);
            self.add(start + 10, 8, &[0, u64::MAX]);
        }
    }

    fn of_rhythm(&mut self, start: usize, n: u64, config: &VitalsConfig) {
        let block = config.decim.max(1).into();
        let every = config.update_every.max(1).into();
        self.add(start, 1, &[0, 1, 64, 65, 255]);
        self.add(start + 1, 2, &[0, n - 1, n, n + 1, 65_535]);
        self.add(start + 3, 2, &[0, n - 1, n, 65_535]);
        self.add(start + 5, 2, &[0, block - 1, block, 65_535]);
        self.add(start + 7, 2, &[0, n - 1, n, every - 1, every, 65_535]);
    }
}

/// Writes an entry of the first two rings. `kept` says which sums go with it: both, or one of them.
pub fn replace(memory: &mut [u8], w: usize, row: usize, column: usize, value: u16, kept: u64) {
    let place = ROWS + ROW_LEN * row + 2 * column;
    let old = number(memory, place, 2);
    put(memory, place, 2, value.into());
    let mut add = |at: usize, size: usize, change: i64| {
        let sum = number(memory, at, size).wrapping_add_signed(change);
        put(memory, at, size, sum);
    };
    let (first, second) = (kept != 1, kept != 2);
    if row < w {
        let (old, new) = (old as i64, i64::from(value));
        if first {
            add(at::SUMS + 4 * column, 4, new - old);
        }
        if second {
            add(at::SQUARE_SUMS + 8 * column, 8, new * new - old * old);
        }
    } else {
        let (old, new) = (unit_vector(old as i16), unit_vector(value as i16));
        if first {
            add(at::COSINES + 4 * column, 4, i64::from(new.0 - old.0));
        }
        if second {
            add(at::SINES + 4 * column, 4, i64::from(new.1 - old.1));
        }
    }
}

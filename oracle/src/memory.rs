//! Whether a memory is one that a run takes: docs/LAYOUT.md read once more, on its own.

use crate::layout::{SETTINGS_LEN, memory_len, settings_from_bytes};
use crate::radar::vitals::VitalsConfig;
use crate::settings::Settings;
use crate::vectors::unit_vector;

pub const COLUMNS: usize = 64;
pub const ROW_LEN: usize = 2 * COLUMNS;

/// Where the parts of the memory stand.
pub const TAG: usize = 118;
pub const PRESENCE: usize = 119;
pub const PHASE: usize = 137;
pub const BREATHING: usize = 155;
pub const HEART: usize = 164;
pub const BASELINE: usize = 173;
pub const FALLS: usize = 183;
pub const SUMS: usize = 202;
pub const SQUARE_SUMS: usize = 458;
pub const COSINES: usize = 970;
pub const SINES: usize = 1226;
pub const BREATHING_TOTALS: usize = 1482;
pub const HEART_TOTALS: usize = 1738;
pub const ROWS: usize = 1994;

/// The highest wander of presence (permille) and of phase (parts per million).
pub const MOST_PERMILLE: u64 = 65_535;
pub const MOST_PPM: u64 = 1_000_000;

/// The number of `size` bytes at `at`, low byte first.
pub fn number(memory: &[u8], at: usize, size: usize) -> u64 {
    let bytes = memory[at..at + size].iter().rev();
    bytes.fold(0, |value, &byte| value << 8 | u64::from(byte))
}

/// Writes the number of `size` bytes at `at`.
pub fn put(memory: &mut [u8], at: usize, size: usize, value: u64) {
    memory[at..at + size].copy_from_slice(&value.to_le_bytes()[..size]);
}

/// Whether the length is that of the settings in it and every range is kept: if not, the refusal
/// is 2.
pub fn legal(memory: &[u8]) -> bool {
    let settings = memory.get(..SETTINGS_LEN).and_then(settings_from_bytes);
    let Some(settings) = settings.filter(Settings::in_range) else {
        return false;
    };
    memory.len() == memory_len(&settings)
        && memory[TAG] <= 4
        && small_states(memory, &settings)
        && presence_sums(memory, &settings)
        && phase_sums(memory, &settings)
}

fn small_states(memory: &[u8], settings: &Settings) -> bool {
    let w = settings.w.into();
    detector(&memory[PRESENCE..], w, MOST_PERMILLE)
        && detector(&memory[PHASE..], w, MOST_PPM)
        && rhythm(
            memory,
            BREATHING,
            BREATHING_TOTALS,
            settings.n,
            &settings.breathing,
        )
        && rhythm(memory, HEART, HEART_TOTALS, settings.n, &settings.heart)
        && baseline(&memory[BASELINE..])
        && falls(&memory[FALLS..])
}

/// Presence or phase, with windows of `w` rows and a wander of at most `most`.
fn detector(at: &[u8], w: u64, most: u64) -> bool {
    let (count, rows, slot) = (at[0], number(at, 1, 2), number(at, 3, 2));
    let (wander, present) = (number(at, 5, 4), at[9]);
    count <= 64 && rows <= w && slot < w && wander <= most && present <= 1
}

/// Breathing or heart, with windows of `n` blocks.
fn rhythm(memory: &[u8], at: usize, totals: usize, n: u16, config: &VitalsConfig) -> bool {
    let (count, n) = (memory[at], u64::from(n));
    let [blocks, slot, frames, since] = [1, 3, 5, 7].map(|k| number(memory, at + k, 2));
    // Every block is waited with until the window is full, then as many as the settings say.
    let waiting = if blocks < n {
        since == blocks
    } else {
        since < u64::from(config.update_every.max(1))
    };
    let total = |column| number(memory, totals + 4 * column, 4);
    count <= 64
        && blocks <= n
        && slot < n
        && frames < u64::from(config.decim.max(1))
        && waiting
        && (0..COLUMNS).all(|column| total(column) <= 65_535 * frames)
}

fn baseline(at: &[u8]) -> bool {
    number(at, 0, 8) <= number(at, 8, 2) * u64::from(u32::MAX)
}

fn falls(at: &[u8]) -> bool {
    let peak = number(at, 1, 2) == 0;
    let (first, second) = (number(at, 3, 8) == 0, number(at, 11, 8) == 0);
    match at[0] {
        0 => peak && first && second,
        1 | 5 => peak && second,
        2 => peak,
        3 => second,
        4 => true,
        _ => false,
    }
}

fn presence_sums(memory: &[u8], settings: &Settings) -> bool {
    let (mut sums, mut squares) = ([0u64; COLUMNS], [0u64; COLUMNS]);
    for row in rows(memory, 0, settings.w.into()) {
        for (column, entry) in row.chunks_exact(2).enumerate() {
            let value = u64::from(u16::from_le_bytes([entry[0], entry[1]]));
            sums[column] += value;
            squares[column] += value * value;
        }
    }
    (0..COLUMNS).all(|column| {
        number(memory, SUMS + 4 * column, 4) == sums[column]
            && number(memory, SQUARE_SUMS + 8 * column, 8) == squares[column]
    })
}

fn phase_sums(memory: &[u8], settings: &Settings) -> bool {
    let (mut cosines, mut sines) = ([0i32; COLUMNS], [0i32; COLUMNS]);
    let w = settings.w.into();
    for row in rows(memory, w, w) {
        for (column, entry) in row.chunks_exact(2).enumerate() {
            let (cosine, sine) = unit_vector(i16::from_le_bytes([entry[0], entry[1]]));
            cosines[column] += cosine;
            sines[column] += sine;
        }
    }
    (0..COLUMNS).all(|column| {
        number(memory, COSINES + 4 * column, 4) as u32 as i32 == cosines[column]
            && number(memory, SINES + 4 * column, 4) as u32 as i32 == sines[column]
    })
}

/// `count` rows from row `first` on.
fn rows(memory: &[u8], first: usize, count: usize) -> impl Iterator<Item = &[u8]> {
    let start = ROWS + first * ROW_LEN;
    memory[start..start + count * ROW_LEN].chunks_exact(ROW_LEN)
}

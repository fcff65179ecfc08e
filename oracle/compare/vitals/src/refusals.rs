//! Calls that are refused: each gives its number, and nothing changes.

use oracle::differ::Differ;
use oracle::frames::COLUMNS;
use oracle::random::Random;
use oracle::refusals::{COUNT, MEMORY, SETTINGS};
use oracle::settings::rhythm_in_range;

use crate::calls::{self, Band, Begun, Config, Frame, NEW, Ours, Pushed, Vitals};
use crate::inputs;

/// New estimators of all sizes and settings, with memory of all lengths; the rows are only read.
pub fn new(differ: &mut Differ, random: &mut Random) {
    let good = inputs::config(random, 128);
    for n in [0, 3, 4, 5, 128, 512, 513, 1 << 58, usize::MAX] {
        for len in [0, 1, 511, 512, 513, 2 * 128 * COLUMNS, 2 * 512 * COLUMNS] {
            let rows = vec![0; len];
            for config in all_settings(good) {
                let legal = (4..=512).contains(&n) && rhythm_in_range(&config.into());
                let refusal = match legal {
                    true if len == 2 * n * COLUMNS => 0,
                    true => MEMORY,
                    false => SETTINGS,
                };
                let due = Begun {
                    refusal,
                    state: NEW,
                };
                let ours = calls::begin(&rows, n, config);
                differ.compare(&("new", n, len, config), &due, &ours);
            }
        }
    }
}

/// Numbers at and beside the ends of their ranges.
fn all_settings(good: Config) -> Vec<Config> {
    let mut all = Vec::new();
    for decim in [0, 1, 32_767, 32_768, 65_535] {
        for rate_hz in [0, 1, 1000, 1001, u32::MAX] {
            for (lo_mhz, hi_mhz) in [(0, 1), (1, 0), (1, 1), (u32::MAX, u32::MAX)] {
                all.push(Config {
                    decim,
                    rate_hz,
                    band: Band { lo_mhz, hi_mhz },
                    ..good
                });
            }
        }
    }
    all
}

/// One thing made wrong: a push and a reset are refused.
pub fn damaged(differ: &mut Differ, random: &mut Random, good: &Ours, mut frame: Frame) {
    let mut bad = good.clone();
    let refusal = spoil(random, &mut bad, &mut frame);
    if random.one_in(2) && refusal != COUNT {
        // a later refusal does not go before an earlier one
        frame.count = 65;
        if refusal == SETTINGS {
            bad.rows.pop();
        }
    }
    let before = bad.clone();
    let Ours {
        n, config, state, ..
    } = before;
    let ours = bad.push(frame);
    let due = Pushed {
        refusal,
        due: false,
        vitals: Vitals::default(),
        state,
    };
    let input = ("damaged push", refusal, n, config);
    differ.compare(&input, &(due, &before.rows), &(ours, &bad.rows));
    if refusal != COUNT {
        let input = ("damaged reset", refusal, n, config);
        differ.compare(&input, &Begun { refusal, state }, &bad.reset());
    }
}

/// Makes one thing wrong; the refusal that is due.
fn spoil(random: &mut Random, bad: &mut Ours, frame: &mut Frame) -> u8 {
    let (n, len, config) = (bad.n, bad.rows.len(), bad.config);
    match random.below(14) {
        0 => bad.state.next = random.pick(&[n, n + 1, usize::MAX]),
        1 => bad.state.filled = random.pick(&[n + 1, usize::MAX]),
        2 => bad.state.count = random.pick(&[65, 66, usize::MAX]),
        3 => {
            let block = u32::from(config.decim.max(1));
            bad.state.acc_n = random.pick(&[block, block + 1, u32::MAX]);
        }
        4 => {
            let most = bad.state.acc_n * 65_535;
            bad.state.acc[random.below(64) as usize] = random.pick(&[most + 1, u32::MAX]);
        }
        5 => {
            let most = u32::from(config.update_every.max(1)).max(n as u32);
            bad.state.since_update = random.pick(&[most, most + 1, u32::MAX]);
        }
        6 => {
            let other = random.pick(&[0, 1, len - 1, len + 1]);
            bad.rows.resize(other, 0);
        }
        kind @ 7..12 => {
            spoil_settings(random, bad, kind);
            return SETTINGS;
        }
        _ => {
            frame.count = random.pick(&[65, 255, usize::MAX]);
            return COUNT;
        }
    }
    MEMORY
}

fn spoil_settings(random: &mut Random, bad: &mut Ours, kind: u64) {
    match kind {
        7 => bad.n = random.pick(&[0, 3, 513, 1 << 58, usize::MAX]),
        8 => bad.config.decim = random.pick(&[32_768, 65_535]),
        9 => bad.config.rate_hz = random.pick(&[0, 1001, u32::MAX]),
        10 => bad.config.band.lo_mhz = 0,
        _ => bad.config.band.hi_mhz = 0,
    }
}

//! The memory that settings need, against the ranges and the layout.

use oracle::differ::Differ;
use oracle::layout::{SETTINGS_LEN, memory_len, settings_from_bytes, settings_to_bytes};
use oracle::random::Random;
use oracle::refusals;
use oracle::settings::Settings;

use compare_room::unit::{self, MemoryLen};

fn due(bytes: &[u8]) -> MemoryLen {
    match settings_from_bytes(bytes).filter(Settings::in_range) {
        Some(settings) => MemoryLen {
            refusal: 0,
            len: memory_len(&settings),
        },
        None => MemoryLen {
            refusal: refusals::SETTINGS,
            len: 0,
        },
    }
}

/// All of every W, N, byte and length; then `count` random settings in range, out of it and of any
/// bytes.
pub fn compare(differ: &mut Differ, random: &mut Random, count: u64) {
    let mut compare = |bytes: &[u8]| differ.compare(&bytes, &due(bytes), &unit::memory_len(bytes));

    // Every W and every N.
    let mut settings = Settings::roomlines();
    for value in 0..=u16::MAX {
        settings.w = value;
        compare(&settings_to_bytes(&settings));
    }
    settings = Settings::roomlines();
    for value in 0..=u16::MAX {
        settings.n = value;
        compare(&settings_to_bytes(&settings));
    }
    // Each byte of settings in range, with every value; each length.
    let bytes = settings_to_bytes(&Settings::roomlines());
    for place in 0..SETTINGS_LEN {
        for value in 0..=u8::MAX {
            let mut changed = bytes.clone();
            changed[place] = value;
            compare(&changed);
        }
    }
    for length in 0..2 * SETTINGS_LEN {
        let mut other = bytes.clone();
        other.resize(length, 0);
        compare(&other);
    }
    for _ in 0..count {
        compare(&settings_to_bytes(&Settings::random(random)));
        compare(&settings_to_bytes(&Settings::out_of_range(random)));
        let any: Vec<u8> = (0..SETTINGS_LEN).map(|_| random.byte()).collect();
        compare(&any);
    }
}

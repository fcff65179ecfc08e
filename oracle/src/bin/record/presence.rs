//! A case is a run of the presence detector, as `detector.rs` has it: thresholds of 2 bytes, and the
//! amplitudes.

use oracle::kinds::{Kind, LONGEST, Presence};

use super::Cases;
use super::detector::{self, Choices, Item, Run};

/// The bench cases of document 01: 1000 and 1010; half 0, half 65,535.
fn bench() -> Vec<Run<Presence>> {
    let half = LONGEST as u16 / 2;
    let two = vec![Item::single(1000, 1), Item::single(1010, 1)];
    let halves = vec![
        Item::single(0, half),
        Item::single(65_535, half - 1),
        Item::single(65_535, 1),
    ];
    vec![
        Run::new(2, Presence::DEFAULT, two),
        Run::new(LONGEST, Presence::DEFAULT, halves),
    ]
}

pub fn cases() -> Cases {
    let choices = Choices::<Presence> {
        on: &[0, 1, 10, 32, 42, 100, 65_535],
        off: &[0, 5, 23, 32, 80, 65_535],
        noises: &[1, 8, 60, 500, 65_536],
        levels: &[0, 40, 1000, 64_000],
        entry: |level, noise| (u64::from(level) + noise).min(65_535) as u16,
    };
    detector::cases(bench(), &choices)
}

//! A case is a run of the phase detector, as `detector.rs` has it: thresholds of 4 bytes, and the
//! angles.

use oracle::kinds::{Kind, Phase};

use super::Cases;
use super::detector::{self, Choices, Item, Run};

/// The bench case of document 01: angles 0 and -32,768.
fn bench() -> Vec<Run<Phase>> {
    let half_turn = [0, -32_768].map(|a| Item::single(a, 1));
    vec![Run::new(2, Phase::DEFAULT, half_turn.into())]
}

pub fn cases() -> Cases {
    let choices = Choices::<Phase> {
        on: &[0, 1, 100, 380, 5000, 1_000_000, u32::MAX],
        off: &[0, 50, 260, 3000, u32::MAX],
        noises: &[1, 100, 600, 5000, 65_536],
        levels: &[0, 15_000, -32_768, -100],
        entry: |level, noise| level.wrapping_add(noise as i16),
    };
    detector::cases(bench(), &choices)
}

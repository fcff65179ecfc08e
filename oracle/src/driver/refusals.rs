//! Calls that are refused: each gives its number, and nothing changes.

use super::calls::{Answer, Ours, Outcome, State};
use super::{FrameOf, Settings, Subject};
use crate::differ::Differ;
use crate::frames::COLUMNS;
use crate::kinds::LONGEST;
use crate::random::Random;
use crate::refusals::{COUNT, MEMORY, SETTINGS};

/// New detectors of all sizes, with memory of all lengths.
pub fn new<S: Subject>(differ: &mut Differ, random: &mut Random) {
    for w in [0, 1, 2, 50, LONGEST, LONGEST + 1, 1 << 40, usize::MAX] {
        for len in [0, 1, 127, 128, 129, 256, 6400, 2 * LONGEST * COLUMNS] {
            let before = random.bytes(len);
            let mut rows = before.clone();
            let ours = S::begin(&mut rows, w);
            let refusal = match w {
                1..=LONGEST if len == 2 * w * COLUMNS => 0,
                1..=LONGEST => MEMORY,
                _ => SETTINGS,
            };
            let (after, zeros) = match refusal {
                0 => (vec![0; len], w),
                _ => (before, 0),
            };
            let due = Outcome {
                refusal,
                state: State::default(),
                sums: S::new_sums(zeros),
            };
            differ.compare(&("new", w, len), &(due, after), &(ours, rows));
        }
    }
}

/// One thing made wrong: a push and a reset are refused.
pub fn damaged<S: Subject>(
    differ: &mut Differ,
    random: &mut Random,
    good: &Ours<S>,
    config: Settings<S>,
    mut frame: FrameOf<S>,
) {
    let mut bad = good.clone();
    let refusal = spoil(random, &mut bad, &mut frame);
    if random.one_in(2) && refusal != COUNT {
        // a later refusal does not go before an earlier one
        frame.count = 65;
    }
    let before = bad.clone();
    let Ours { state, sums, .. } = before;
    let ours = bad.call_push(config, frame);
    let due = Answer {
        refusal,
        tag: 0,
        motion: 0,
        state,
        sums,
    };
    let input = ("damaged push", refusal);
    differ.compare(&input, &(due, &before.rows), &(ours, &bad.rows));
    if refusal != COUNT {
        let due = Outcome {
            refusal,
            state,
            sums,
        };
        let ours = bad.call_reset();
        let input = ("damaged reset", refusal);
        differ.compare(&input, &(due, &before.rows), &(ours, &bad.rows));
    }
}

/// Makes one thing wrong; the refusal that is due.
fn spoil<S: Subject>(random: &mut Random, bad: &mut Ours<S>, frame: &mut FrameOf<S>) -> u8 {
    let column = random.below(COLUMNS as u64) as usize;
    let (w, len) = (bad.w, bad.rows.len());
    match random.below(11) {
        0 => bad.state.next = random.pick(&[w, w + 1, usize::MAX]),
        1 => bad.state.filled = random.pick(&[w + 1, usize::MAX]),
        2 => bad.state.count = random.pick(&[65, 66, usize::MAX]),
        3 => bad.state.wander = random.pick(&[S::MOST + 1, u32::MAX]),
        4 => bad.state.present = random.pick(&[2, 3, 128, 255]),
        5 => S::spoil_sum(random, &mut bad.sums, column, false),
        6 => S::spoil_sum(random, &mut bad.sums, column, true),
        7 => {
            let at = random.below(len as u64) as usize;
            S::spoil_row(random, &mut bad.rows, at);
        }
        8 => {
            let other = if random.one_in(2) { len + 1 } else { len - 1 };
            bad.rows.resize(other, 0);
        }
        9 => {
            if random.one_in(2) {
                bad.state.present = 2;
            }
            bad.w = random.pick(&[0, LONGEST + 1, usize::MAX]);
            return SETTINGS;
        }
        _ => {
            frame.count = random.pick(&[65, 255, usize::MAX]);
            return COUNT;
        }
    }
    MEMORY
}

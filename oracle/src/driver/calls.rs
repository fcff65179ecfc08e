//! What the exported calls take and return, and our detector over them.

use super::{FrameOf, Settings, Subject};
use crate::frames::COLUMNS;
use crate::kinds::Numbers;
use crate::random::Random;

/// A state as numbers; `present` is 0 or 1.
#[repr(C)]
#[derive(Debug, Default, Clone, Copy, PartialEq)]
pub struct State {
    pub count: usize,
    pub filled: usize,
    pub next: usize,
    pub wander: u32,
    pub present: u8,
    pub last_motion: u64,
}

#[repr(C)]
#[derive(Debug, PartialEq)]
pub struct Outcome<T> {
    pub refusal: u8,
    pub state: State,
    pub sums: T,
}

#[repr(C)]
#[derive(Debug, PartialEq)]
pub struct Answer<T> {
    pub refusal: u8,
    pub tag: u8,
    pub motion: u8,
    pub state: State,
    pub sums: T,
}

/// Declares a detector's exported calls as functions of its `Subject`: their names, the types of an
/// entry, of a threshold and of the sums.
#[macro_export]
macro_rules! exported_calls {
    ($new:ident, $reset:ident, $push:ident: $entry:ty, $level:ty, $sums:ty) => {
        fn begin(rows: &mut [u8], w: usize) -> $crate::driver::Outcome<$sums> {
            unsafe extern "C" {
                fn $new(rows: *mut u8, rows_len: usize, w: usize)
                -> $crate::driver::Outcome<$sums>;
            }
            // SAFETY: the pointer and length are those of a slice.
            unsafe { $new(rows.as_mut_ptr(), rows.len(), w) }
        }

        fn reset(
            rows: &[u8],
            w: usize,
            state: $crate::driver::State,
            sums: $sums,
        ) -> $crate::driver::Outcome<$sums> {
            unsafe extern "C" {
                fn $reset(
                    rows: *const u8,
                    rows_len: usize,
                    w: usize,
                    state: $crate::driver::State,
                    sums: $sums,
                ) -> $crate::driver::Outcome<$sums>;
            }
            // SAFETY: the pointer and length are those of a slice, which is only read.
            unsafe { $reset(rows.as_ptr(), rows.len(), w, state, sums) }
        }

        fn push(
            rows: &mut [u8],
            w: usize,
            config: $crate::kinds::Config<$level>,
            state: $crate::driver::State,
            sums: $sums,
            frame: $crate::frames::Frame<$entry>,
        ) -> $crate::driver::Answer<$sums> {
            unsafe extern "C" {
                fn $push(
                    rows: *mut u8,
                    rows_len: usize,
                    w: usize,
                    config: $crate::kinds::Config<$level>,
                    state: $crate::driver::State,
                    sums: $sums,
                    frame: $crate::frames::Frame<$entry>,
                ) -> $crate::driver::Answer<$sums>;
            }
            // SAFETY: the pointer and length are those of a slice.
            unsafe { $push(rows.as_mut_ptr(), rows.len(), w, config, state, sums, frame) }
        }
    };
}

/// Our detector: its window size, its memory, its state and its sums.
#[derive(Clone)]
pub struct Ours<S: Subject> {
    pub w: usize,
    pub rows: Vec<u8>,
    pub state: State,
    pub sums: S::Sums,
}

impl<S: Subject> Ours<S> {
    /// A new one over memory of any content.
    pub fn new(random: &mut Random, w: usize) -> Self {
        let mut rows = random.bytes(2 * w * COLUMNS);
        let begun = S::begin(&mut rows, w);
        assert_eq!(begun.refusal, 0);
        assert!(rows.iter().all(|&b| b == 0));
        Ours {
            w,
            rows,
            state: begun.state,
            sums: begun.sums,
        }
    }

    /// A push whose answer is not kept.
    pub fn call_push(&mut self, config: Settings<S>, frame: FrameOf<S>) -> Answer<S::Sums> {
        S::push(&mut self.rows, self.w, config, self.state, self.sums, frame)
    }

    /// A reset whose outcome is not kept.
    pub fn call_reset(&self) -> Outcome<S::Sums> {
        S::reset(&self.rows, self.w, self.state, self.sums)
    }

    pub fn push(&mut self, config: Settings<S>, frame: FrameOf<S>) -> Numbers {
        let answer = self.call_push(config, frame);
        assert_eq!(answer.refusal, 0);
        (self.state, self.sums) = (answer.state, answer.sums);
        (answer.tag, answer.motion, answer.state.wander)
    }

    pub fn reset(&mut self) {
        let outcome = self.call_reset();
        assert_eq!(outcome.refusal, 0);
        (self.state, self.sums) = (outcome.state, outcome.sums);
    }
}

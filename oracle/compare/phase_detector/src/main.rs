//! The phase detector against the Rust: `compare_phase_detector [seed] [runs]`.

use std::array;
use std::process::ExitCode;

use oracle::driver::{Subject, drive};
use oracle::frames::COLUMNS;
use oracle::kinds::{self, Numbers};
use oracle::random::Random;

#[repr(C)]
#[derive(Debug, Clone, Copy, PartialEq)]
struct Sums {
    cos: [i32; COLUMNS],
    sin: [i32; COLUMNS],
}

#[derive(Clone)]
struct PhaseDetector;

impl Subject for PhaseDetector {
    type Kind = kinds::Phase;
    type Sums = Sums;

    const NAME: &'static str = "phase_detector";
    const MOST: u32 = 1_000_000;
    const JITTERS: &'static [u64] = &[1, 2, 100, 400, 2000, 20_000, 65_536];
    const BENCH: [(usize, [i16; 2], Numbers); 2] = [
        (2, [0, -32_768], (2, 255, 1_000_000)),
        (200, [0, -32_768], (2, 255, 1_000_000)),
    ];

    oracle::exported_calls!(phase_detector_new, phase_detector_reset, phase_detector_push: i16, u32, Sums);

    fn new_sums(w: usize) -> Sums {
        Sums {
            cos: [16_384 * w as i32; COLUMNS],
            sin: [0; COLUMNS],
        }
    }

    fn spoil_sum(random: &mut Random, sums: &mut Sums, column: usize, second: bool) {
        if second {
            sums.sin[column] ^= 1 << random.below(32);
        } else {
            sums.cos[column] = sums.cos[column].wrapping_add(random.pick(&[1, -1, i32::MIN]));
        }
    }

    /// The upper six bits of an angle's low byte and those of its high byte are its vector.
    fn spoil_row(_: &mut Random, rows: &mut [u8], at: usize) {
        rows[at & !1] ^= 0x40;
    }

    fn threshold(random: &mut Random) -> u32 {
        match random.below(8) {
            0 => 0,
            1 => u32::MAX,
            2 => random.any_size() as u32,
            3 => 1_000_000,
            _ => random.below(5000) as u32,
        }
    }

    fn base(random: &mut Random) -> [i16; COLUMNS] {
        let kind = random.below(4);
        array::from_fn(|_| match kind {
            0 => 0,
            1 => random.pick(&[0, 16_384, -16_384, -32_768, 32_767]),
            _ => random.word() as i16,
        })
    }

    /// More motion, or less.
    fn change(random: &mut Random, _: &mut [i16; COLUMNS], jitter: &mut u64) {
        *jitter = random.pick(Self::JITTERS);
    }

    fn noisy(random: &mut Random, base: i16, jitter: u64) -> i16 {
        base.wrapping_add(random.below(jitter) as i16)
    }

    fn timed(random: &mut Random, column: usize, walking: bool) -> i16 {
        let noise = random.below(if walking { 4000 } else { 400 });
        (column as i16 * 997).wrapping_add(noise as i16)
    }
}

fn main() -> ExitCode {
    drive::<PhaseDetector>()
}

//! Presence against the Rust: `compare_presence [seed] [runs]`.

use std::array;
use std::process::ExitCode;

use oracle::differ::Differ;
use oracle::driver::{Subject, drive};
use oracle::frames::COLUMNS;
use oracle::kinds::{self, Config, LONGEST, Numbers};
use oracle::radar::csi;
use oracle::random::Random;

#[repr(C)]
#[derive(Debug, Clone, Copy, PartialEq)]
struct Sums {
    sum: [u32; COLUMNS],
    sumsq: [u64; COLUMNS],
}

#[derive(Clone)]
struct Presence;

impl Subject for Presence {
    type Kind = kinds::Presence;
    type Sums = Sums;

    const NAME: &'static str = "presence";
    const MOST: u32 = 65_535;
    const JITTERS: &'static [u64] = &[1, 2, 20, 200, 2000, 70_000];
    const BENCH: [(usize, [u16; 2], Numbers); 2] = [
        (2, [1000, 1010], (1, 0, 4)),
        (LONGEST, [0, 65_535], (2, 255, 1000)),
    ];

    oracle::exported_calls!(presence_new, presence_reset, presence_push: u16, u16, Sums);

    fn others(differ: &mut Differ) {
        unsafe extern "C" {
            safe fn presence_normalised_default() -> Config<u16>;
        }
        let rust = csi::Config::normalised_default();
        let ours = csi::Config::from(presence_normalised_default());
        differ.compare(&"normalised default", &rust, &ours);
    }

    fn new_sums(_: usize) -> Sums {
        Sums {
            sum: [0; COLUMNS],
            sumsq: [0; COLUMNS],
        }
    }

    fn spoil_sum(random: &mut Random, sums: &mut Sums, column: usize, second: bool) {
        if second {
            sums.sumsq[column] ^= 1 << random.below(64);
        } else {
            sums.sum[column] = sums.sum[column].wrapping_add(random.pick(&[1, u32::MAX]));
        }
    }

    fn spoil_row(random: &mut Random, rows: &mut [u8], at: usize) {
        rows[at] ^= 1 << random.below(8);
    }

    fn threshold(random: &mut Random) -> u16 {
        match random.below(8) {
            0 => 0,
            1 => 65_535,
            2 => random.any_size() as u16,
            _ => random.below(120) as u16,
        }
    }

    fn base(random: &mut Random) -> [u16; COLUMNS] {
        let kind = random.below(6);
        array::from_fn(|_| match kind {
            0 => random.below(4) as u16,
            1 => 65_535 - random.below(3) as u16,
            2 => random.pick(&[0, 65_535]),
            3 => random.any_size() as u16,
            _ => random.between(20, 1500) as u16,
        })
    }

    /// A step in gain.
    fn change(random: &mut Random, base: &mut [u16; COLUMNS], _: &mut u64) {
        let gain = random.between(1, 4);
        *base = base.map(|b| (u64::from(b) * gain).min(65_535) as u16);
    }

    fn noisy(random: &mut Random, base: u16, jitter: u64) -> u16 {
        let noise = random.below(jitter);
        match random.one_in(2) {
            true => u64::from(base).saturating_sub(noise) as u16,
            false => (u64::from(base) + noise).min(65_535) as u16,
        }
    }

    fn timed(random: &mut Random, _: usize, walking: bool) -> u16 {
        (1000 + random.below(if walking { 300 } else { 20 })) as u16
    }
}

fn main() -> ExitCode {
    drive::<Presence>()
}

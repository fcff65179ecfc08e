//! The chances of a fall against the Rust: `compare_chance [seed] [settings tried] [settings merged]`. The choices are lent
//! between guard pages.

use std::hint::black_box;
use std::process::ExitCode;

use oracle::chance::{
    self, Chances, Counts, EXAMPLE, LARGEST_SPACING, LONGEST, MOST_CHOICES, SECOND, by_length,
    chances, merged, most_events, tried,
};
use oracle::differ::{self, Differ};
use oracle::falls::Config;
use oracle::lent::{self, Lent, Side};
use oracle::radar::fall::FallConfig;
use oracle::random::Random;
use oracle::{argument, timer};

unsafe extern "C" {
    fn chance_count(
        config: Config,
        choices: *const u16,
        choices_len: usize,
        spacing: u64,
        n: u64,
    ) -> Chances;
}

fn count(config: &FallConfig, choices: &[u16], spacing: u64, n: u64) -> Chances {
    let config = Config::of(config);
    // SAFETY: the pointer and length are those of a slice, which the call reads.
    unsafe { chance_count(config, choices.as_ptr(), choices.len(), spacing, n) }
}

/// The call with its choices against a guard, by turns at their end and at their front.
struct Guarded {
    choices: Lent,
    side: Side,
}

impl Guarded {
    fn count(&mut self, config: &FallConfig, choices: &[u16], spacing: u64, n: u64) -> Chances {
        self.side = match self.side {
            Side::Front => Side::Back,
            Side::Back => Side::Front,
        };
        let bytes: Vec<u8> = choices.iter().flat_map(|c| c.to_ne_bytes()).collect();
        let lent = self.choices.lend(&bytes, self.side);
        // SAFETY: both guards end at an even address, and the bytes are those of so many choices.
        let given = unsafe { std::slice::from_raw_parts(lent.as_ptr().cast(), choices.len()) };
        let answer = count(config, given, spacing, n);
        assert_eq!(given, choices, "a call wrote its choices");
        answer
    }
}

struct Bench<'a> {
    differ: &'a mut Differ,
    ours: Guarded,
    calls: u64,
    /// Inputs by the most events that one of their sequences gives.
    by_events: Counts,
}

impl Bench<'_> {
    fn compare(
        &mut self,
        rust: Chances,
        config: &FallConfig,
        choices: &[u16],
        spacing: u64,
        n: u64,
    ) {
        self.calls += 1;
        lent::now(self.calls);
        let ours = self.ours.count(config, choices, spacing, n);
        let input = (config, choices, "apart", spacing, "frames", n);
        self.differ.compare(&input, &rust, &ours);
        self.by_events[most_events(&rust.counts)] += 1;
    }

    /// Settings with every sequence tried, of which there are at most so many: as long as can be, or of any length.
    fn tried(&mut self, random: &mut Random, most: u64, as_long: bool) {
        let (config, choices, spacing) = chance::random(random);
        let m = choices.len() as u64;
        let fit = |n: &u64| m.checked_pow(*n as u32).is_some_and(|all| all <= most);
        let longest = (0..=LONGEST).take_while(fit).last().unwrap();
        let n = if as_long {
            longest
        } else {
            random.below(longest + 1)
        };
        let rust = Chances::of(tried(config, &choices, spacing, n));
        self.compare(rust, &config, &choices, spacing, n);
    }

    /// The same settings with every length.
    fn merged(&mut self, config: FallConfig, choices: &[u16], spacing: u64) {
        let lengths = by_length(config, choices, spacing, LONGEST);
        for (n, counts) in (0..).zip(lengths) {
            self.compare(Chances::of(counts), &config, choices, spacing, n);
        }
    }

    /// Every one of the 4^13 and 4^14 sequences; then every length.
    fn example(&mut self) {
        let config = FallConfig::normalised_default();
        for (n, one) in [(13, 0), (14, 4_096)] {
            let counts = tried(config, &EXAMPLE, SECOND, n);
            assert_eq!(counts[..2], [(1 << (2 * n)) - one, one]);
            self.compare(Chances::of(counts), &config, &EXAMPLE, SECOND, n);
        }
        self.merged(config, &EXAMPLE, SECOND);
    }

    /// Each limit at its edge, left by one and by more, alone and together.
    fn limits(&mut self, random: &mut Random) {
        let (many, far) = (MOST_CHOICES, LARGEST_SPACING);
        let lengths = [0, 1, many, 5, 6, 8, 256 + 1, 65_536 + 1];
        let spacings = [0, 1, far, far + 1, 1 << 32, u64::MAX];
        let frames = [0, 8, 24, 25, 26, 256 + 8, 65_536 + 8, 1 << 32, u64::MAX];
        for len in lengths {
            for spacing in spacings {
                for n in frames {
                    let (config, some, _) = chance::random(random);
                    let choices: Vec<u16> = (0..len).map(|_| random.pick(&some)).collect();
                    let rust = chances(config, &choices, spacing, n);
                    self.compare(rust, &config, &choices, spacing, n);
                }
            }
        }
    }

    fn say_events(&self) {
        let with = self.by_events[1..].iter().sum::<u64>();
        let most = most_events(&self.by_events);
        let each = &self.by_events[..=most];
        println!("chance: {with} inputs with events, at most {most}; by the most events {each:?}");
    }
}

/// Prints the time of the longest call at the example as a ratio to the Rust's, equal machines counted together.
fn measure() {
    let config = FallConfig::normalised_default();
    let rust = || {
        black_box(merged(config, &EXAMPLE, SECOND, LONGEST));
    };
    let ours = || {
        black_box(count(&config, &EXAMPLE, SECOND, LONGEST));
    };
    println!(
        "{LONGEST} frames of {EXAMPLE:?}: {}",
        timer::ratio(21, rust, ours)
    );
}

fn main() -> ExitCode {
    lent::say_what_was_touched();
    differ::compare("chance", |differ, random| {
        let mut bench = Bench {
            differ,
            ours: Guarded {
                choices: Lent::new(1),
                side: Side::Front,
            },
            calls: 0,
            by_events: [0; LONGEST as usize + 1],
        };
        bench.example();
        bench.limits(random);
        for i in 0..argument(2, 8_000) {
            // Four choices at 10 frames, at 8 or at fewer.
            let (long, as_long) = (i % 20 == 0, i % 2 == 0);
            bench.tried(random, if long { 1 << 20 } else { 1 << 16 }, as_long);
        }
        for _ in 0..argument(3, 400) {
            let (config, choices, spacing) = chance::random(random);
            bench.merged(config, &choices, spacing);
        }
        bench.say_events();
        measure();
    })
}

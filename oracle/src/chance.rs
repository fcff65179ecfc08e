//! How often chance makes a fall: of all sequences of some wander values, how many give each number of events. Frames are
//! one spacing apart, the first at time 0, and a value listed twice is two choices. Counted with the Rust's own machine.

use std::collections::HashMap;
use std::fmt::Write;

use rusty_esp_core::Micros;

use crate::radar::fall::{FallConfig, FallDetector};
use crate::random::Random;
use crate::refusals::CHANCES;
use crate::settings::fall_config;

/// In frames.
pub const LONGEST: u64 = 24;
pub const MOST_CHOICES: usize = 4;
/// In microseconds.
pub const LARGEST_SPACING: u64 = 1_000_000_000;

/// How many sequences give each number of events, from 0 to one in every frame of the longest.
pub type Counts = [u64; LONGEST as usize + 1];

const NONE: Counts = [0; LONGEST as usize + 1];

/// As the exported call has it. On a refusal all counts are 0.
#[repr(C)]
#[derive(Debug, Clone, Copy, PartialEq)]
pub struct Chances {
    pub refusal: u8,
    pub counts: Counts,
}

impl Chances {
    pub const REFUSED: Chances = Chances {
        refusal: CHANCES,
        counts: NONE,
    };

    pub fn of(counts: Counts) -> Chances {
        Chances { refusal: 0, counts }
    }
}

/// The answer that is due, `merged` where it is not refused.
pub fn chances(config: FallConfig, choices: &[u16], spacing: u64, n: u64) -> Chances {
    let taken = (1..=MOST_CHOICES).contains(&choices.len());
    if taken && n <= LONGEST && spacing <= LARGEST_SPACING {
        Chances::of(merged(config, choices, spacing, n))
    } else {
        Chances::REFUSED
    }
}

/// When the frames come.
fn times(spacing: u64, n: u64) -> Vec<Micros> {
    (0..n).map(|i| Micros(i * spacing)).collect()
}

/// Every sequence of `n` values, one by one from a new machine.
pub fn tried(config: FallConfig, choices: &[u16], spacing: u64, n: u64) -> Counts {
    let mut counts = NONE;
    let new = FallDetector::new(config);
    go_on(&new, 0, choices, &times(spacing, n), &mut counts);
    counts
}

/// Goes on with every choice for the frame that is next; where none is left, a sequence is whole.
fn go_on(
    machine: &FallDetector,
    events: usize,
    choices: &[u16],
    times: &[Micros],
    counts: &mut Counts,
) {
    let Some((now, later)) = times.split_first() else {
        counts[events] += 1;
        return;
    };
    for wander in choices {
        let mut next = machine.clone();
        let event = next.push(*wander, *now);
        let events = events + usize::from(event.is_some());
        go_on(&next, events, choices, later, counts);
    }
}

/// Machines and how many sequences lead to each, by how it prints: its state and how many events it made. The Rust's has
/// no equality of its own.
type Machines = HashMap<String, (FallDetector, u64)>;

/// The same counts frame by frame: equal machines that made equally many events are counted together.
pub fn merged(config: FallConfig, choices: &[u16], spacing: u64, n: u64) -> Counts {
    by_length(config, choices, spacing, n)[n as usize]
}

/// `merged` for every length from 0 to `n`.
pub fn by_length(config: FallConfig, choices: &[u16], spacing: u64, n: u64) -> Vec<Counts> {
    let new = FallDetector::new(config);
    let mut machines = Machines::from([(format!("{new:?}"), (new, 1))]);
    let mut lengths = vec![counted(&machines)];
    for now in times(spacing, n) {
        machines = after_a_frame(&machines, choices, now);
        lengths.push(counted(&machines));
    }
    lengths
}

fn after_a_frame(machines: &Machines, choices: &[u16], now: Micros) -> Machines {
    let mut after = Machines::new();
    let mut text = String::new();
    for (machine, sequences) in machines.values() {
        for wander in choices {
            let mut next = machine.clone();
            next.push(*wander, now);
            text.clear();
            write!(text, "{next:?}").unwrap();
            match after.get_mut(&text) {
                Some((_, count)) => *count += sequences,
                None => {
                    after.insert(text.clone(), (next, *sequences));
                }
            }
        }
    }
    after
}

fn counted(machines: &Machines) -> Counts {
    let mut counts = NONE;
    for (machine, sequences) in machines.values() {
        counts[machine.events() as usize] += sequences;
    }
    counts
}

/// The most events that a sequence gives.
pub fn most_events(counts: &Counts) -> usize {
    counts.iter().rposition(|count| *count > 0).unwrap_or(0)
}

/// Those of the example in docs/SPEC.md, with the default settings and one second apart.
pub const EXAMPLE: [u16; 4] = [30, 31, 32, 232];
pub const SECOND: u64 = 1_000_000;

/// What the program fallchances prints.
pub fn lines() -> String {
    let default = FallConfig::normalised_default();
    let lengths = by_length(default, &EXAMPLE, SECOND, LONGEST);
    let length = |(n, counts): (usize, &Counts)| {
        let total = (EXAMPLE.len() as u64).pow(n as u32);
        let made = counts.iter().enumerate().filter(|(_, count)| **count > 0);
        made.map(|(events, count)| {
            let chance = chance(*count, total);
            format!("frames {n} events {events} count {count} of {total} {chance}\n")
        })
        .collect::<String>()
    };
    lengths.iter().enumerate().map(length).collect()
}

/// In lowest terms, and to twelve decimal places, rounded down.
fn chance(count: u64, total: u64) -> String {
    const PLACES: u128 = 1_000_000_000_000;
    let common = common(count, total);
    let parts = u128::from(count) * PLACES / u128::from(total);
    let (whole, rest) = (parts / PLACES, parts % PLACES);
    let (a, b) = (count / common, total / common);
    format!("fraction {a}/{b} probability {whole}.{rest:012}")
}

/// The greatest common divisor.
pub fn common(a: u64, b: u64) -> u64 {
    if b == 0 { a } else { common(b, a % b) }
}

/// Settings, choices and a spacing. The choices stand about the thresholds. Every other time many sequences give events.
pub fn random(random: &mut Random) -> (FallConfig, Vec<u16>, u64) {
    let spacing = random.pick(&[0, 1, 2, SECOND, LARGEST_SPACING]);
    let mut thresholds = [(); 3].map(|()| match random.below(16) {
        0 => random.pick(&[0, u16::MAX]),
        _ => random.below(6) as u16,
    });
    let mut durations = [(); 5].map(|()| duration(random, spacing));
    let eventful = random.one_in(2);
    if eventful {
        // In their order; that of stillness is last in the settings.
        thresholds.sort();
        thresholds.rotate_left(1);
        shorten(random, spacing, &mut durations);
    }
    let many = random.pick(&[1, 2, 3, 3, MOST_CHOICES, MOST_CHOICES]);
    let choice = |_| match random.below(16) {
        0 => random.pick(&[0, u16::MAX]),
        _ => random
            .pick(&thresholds)
            .saturating_add_signed(random.below(3) as i16 - 1),
    };
    let mut choices: Vec<u16> = (0..many).map(choice).collect();
    if let (true, [first, .., last]) = (eventful, &mut choices[..]) {
        let [_, burst, still] = thresholds;
        (*first, *last) = (still.saturating_sub(random.below(2) as u16), burst);
    }
    let config = fall_config(thresholds, durations.map(Micros));
    (config, choices, spacing)
}

/// Mostly makes short what an event needs to be short, and what another needs after it.
fn shorten(random: &mut Random, spacing: u64, durations: &mut [u64; 5]) {
    let [min_active, _, _, still_for, refractory] = durations;
    for (duration, one_in) in [(min_active, 8), (still_for, 8), (refractory, 3)] {
        if !random.one_in(one_in) {
            *duration = random.pick(&[0, spacing.saturating_sub(1), spacing]);
        }
    }
}

/// Mostly some spacings or one off; else very short, or of any size up to the largest.
fn duration(random: &mut Random, spacing: u64) -> u64 {
    let some = random.below(5) * spacing;
    match random.below(16) {
        0 => random.pick(&[u64::MAX, u64::MAX - 1]),
        1 => u64::MAX - some,
        2 => random.any_size(),
        3 | 4 => random.below(4),
        _ => (some + random.below(3)).saturating_sub(1),
    }
}

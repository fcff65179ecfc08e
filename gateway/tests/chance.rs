//! How often chance makes a fall: the example, laws that hold of any settings, and the limits.

mod common;

use common::Random;
use volkjarp::chance::{self, CHOICES, COUNTS, Chances, FRAMES, OutOfRange, SPACING};
use volkjarp::{Falls, Micros};

const EXAMPLE: [u16; CHOICES] = [30, 31, 32, 232];

/// The example of docs/SPEC.md: the default settings, a second from frame to frame.
fn example(frames: usize) -> Chances {
    count(&Falls::default(), &EXAMPLE, 1_000_000, frames)
}

fn count(falls: &Falls, choices: &[u16], spacing: u64, frames: usize) -> Chances {
    chance::count(falls, choices, Micros(spacing), frames).unwrap()
}

/// Counts of 0, 1, .. events, and no more.
fn counts(front: &[u64]) -> [u64; COUNTS] {
    std::array::from_fn(|events| front.get(events).copied().unwrap_or(0))
}

/// Settings under which falls come up within 24 frames, and choices about their thresholds.
fn made_up(random: &mut Random, spacing: u64) -> (Falls, [u16; CHOICES]) {
    let mut lasting = |frames| Micros(random.below(frames) as u64 * spacing);
    let falls = Falls {
        min_active: lasting(3),
        quiet_grace: lasting(4),
        settle: lasting(3),
        still_for: lasting(5),
        refractory: lasting(6),
        ..Falls::default()
    };
    let near = [0, 29, 30, 31, 32, 33, 231, 232, 233, u16::MAX];
    let choices = std::array::from_fn(|place| match place {
        0 => 30,
        1 => 232,
        _ => near[random.below(near.len())],
    });
    (falls, choices)
}

#[test]
fn the_example() {
    for frames in 0..=FRAMES {
        assert_eq!(example(frames).total(), 4_u64.pow(frames as u32));
    }
    assert_eq!(*example(0).counts(), counts(&[1]));
    assert_eq!(*example(13).counts(), counts(&[1 << 26]));
    assert_eq!(*example(14).counts(), counts(&[(1 << 28) - 4096, 4096]));
    assert_eq!(*example(15).counts(), counts(&[(1 << 30) - 53_248, 53_248]));
}

#[test]
fn parts_of_all_sequences() {
    let chances = example(14);
    assert_eq!(chances.fraction(1), (1, 65_536));
    assert_eq!(chances.fraction(0), (65_535, 65_536));
    assert_eq!(chances.probability(1), 1.0 / 65_536.0);
    assert_eq!(example(15).fraction(1), (13, 1 << 18));
    for events in [2, COUNTS - 1, COUNTS, usize::MAX] {
        assert_eq!(chances.fraction(events), (0, 1));
        assert_eq!(chances.probability(events), 0.0);
    }
    assert_eq!(example(0).fraction(0), (1, 1));
    assert_eq!(example(0).probability(0), 1.0);
    let sum: f64 = (0..COUNTS)
        .map(|events| example(24).probability(events))
        .sum();
    assert_eq!(sum, 1.0);
}

/// The order of the choices makes no difference.
#[test]
fn choices_in_any_order() {
    let mut random = Random(1);
    for _ in 0..20 {
        let (falls, mut choices) = made_up(&mut random, 1000);
        let due = count(&falls, &choices, 1000, FRAMES);
        choices.rotate_left(1 + random.below(CHOICES - 1));
        assert_eq!(count(&falls, &choices, 1000, FRAMES), due);
        choices.swap(0, 1);
        assert_eq!(count(&falls, &choices, 1000, FRAMES), due);
    }
}

/// With each value listed twice, each sequence of n frames comes up 2^n times.
#[test]
fn choices_listed_twice() {
    let mut random = Random(2);
    for frames in 0..=FRAMES {
        let (falls, [a, b, ..]) = made_up(&mut random, 1000);
        let once = count(&falls, &[a, b], 1000, frames);
        let twice = count(&falls, &[a, b, b, a], 1000, frames);
        assert_eq!(*twice.counts(), once.counts().map(|count| count << frames));
    }
}

/// Values on the same side of all three thresholds are as one value.
#[test]
fn choices_between_the_same_thresholds() {
    let mut random = Random(3);
    for _ in 0..20 {
        let (falls, _) = made_up(&mut random, 1000);
        let of = |choices: [u16; CHOICES]| count(&falls, &choices, 1000, FRAMES);
        assert_eq!(of([30, 31, 32, 232]), of([0, 31, 231, u16::MAX]));
    }
}

/// One value makes one sequence.
#[test]
fn one_value() {
    let mut random = Random(4);
    for frames in 0..=FRAMES {
        let (falls, choices) = made_up(&mut random, 1000);
        for value in choices {
            let chances = count(&falls, &[value], 1000, frames);
            assert_eq!(chances.total(), 1);
            assert!(chances.counts().contains(&1));
        }
    }
}

/// Only the ratios of times count.
#[test]
fn spacing_and_durations_scaled() {
    let mut with_falls = 0;
    for seed in 1..=40 {
        let of = |spacing: u64| {
            let (falls, choices) = made_up(&mut Random(seed), spacing);
            count(&falls, &choices, spacing, FRAMES)
        };
        assert_eq!(of(1), of(1000));
        assert_eq!(of(1), of(SPACING.0));
        with_falls += u32::from(of(1).fraction(0) != (1, 1));
    }
    assert!(with_falls >= 20);
}

/// An event on the fourth frame, then on each fifth.
#[test]
fn five_events_at_most() {
    let falls = Falls {
        min_active: Micros(0),
        quiet_grace: Micros(0),
        settle: Micros(0),
        still_for: Micros(0),
        refractory: Micros(0),
        ..Falls::default()
    };
    for frames in 0..=FRAMES {
        let chances = count(&falls, &EXAMPLE, 0, frames);
        let most = chances.counts().iter().rposition(|count| *count > 0);
        assert_eq!(most, Some((frames + 1) / 5));
    }
}

#[test]
fn limits() {
    let falls = Falls::default();
    let asked = |choices: &[u16], spacing, frames| {
        chance::count(&falls, choices, Micros(spacing), frames).map(|chances| chances.total())
    };
    let five = [30, 31, 32, 232, 300];
    assert_eq!(asked(&five[..0], 0, 0), Err(OutOfRange));
    assert_eq!(asked(&five[..1], 0, 0), Ok(1));
    assert_eq!(asked(&five[..4], 0, FRAMES), Ok(1 << 48));
    assert_eq!(asked(&five, 0, 0), Err(OutOfRange));
    assert_eq!(asked(&EXAMPLE, 0, FRAMES + 1), Err(OutOfRange));
    assert_eq!(asked(&EXAMPLE, 0, usize::MAX), Err(OutOfRange));
    assert_eq!(asked(&EXAMPLE, SPACING.0, FRAMES), Ok(1 << 48));
    assert_eq!(asked(&EXAMPLE, SPACING.0 + 1, 0), Err(OutOfRange));
    assert_eq!(asked(&EXAMPLE, u64::MAX, 0), Err(OutOfRange));
    assert_eq!((OutOfRange.number(), SPACING.0), (13, 1_000_000_000));
}

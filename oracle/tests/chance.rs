//! What docs/SPEC.md says of the chances of a fall, asked of the counts that our call is compared with.

use std::collections::HashMap;

use oracle::chance::{
    Chances, Counts, EXAMPLE, LARGEST_SPACING, LONGEST, MOST_CHOICES, SECOND, by_length, chances,
    common, lines, merged, most_events, random, tried,
};
use oracle::radar::fall::FallConfig;
use oracle::random::Random;

const DEFAULT: FallConfig = FallConfig::normalised_default();

/// The counts for 0 and more events, the others being 0.
fn counts(first: &[u64]) -> Counts {
    let mut counts = [0; LONGEST as usize + 1];
    counts[..first.len()].copy_from_slice(first);
    counts
}

#[test]
fn merged_is_every_sequence_tried() {
    let mut source = Random::new(2);
    let mut most = 0;
    for _ in 0..400 {
        let (config, choices, spacing) = random(&mut source);
        let longest = [0, 16, 12, 9, 7][choices.len()];
        let lengths = by_length(config, &choices, spacing, longest);
        for (n, together) in (0..).zip(lengths) {
            let counts = tried(config, &choices, spacing, n);
            assert_eq!(together, counts, "{config:?} {choices:?} {spacing} {n}");
            most = most.max(most_events(&counts));
        }
    }
    assert!(most >= 2, "at most {most} events");
}

#[test]
fn counts_total_choices_to_the_power_of_the_length() {
    let mut source = Random::new(3);
    for _ in 0..40 {
        let (config, choices, spacing) = random(&mut source);
        for (n, counts) in (0..).zip(by_length(config, &choices, spacing, LONGEST)) {
            assert_eq!(counts.iter().sum::<u64>(), (choices.len() as u64).pow(n));
        }
    }
}

/// Of the two lengths that docs/SPEC.md names every sequence is tried by compare_chance.
#[test]
fn the_example() {
    let lengths = by_length(DEFAULT, &EXAMPLE, SECOND, LONGEST);
    for (n, given) in (0..=13).zip(&lengths) {
        assert_eq!(*given, counts(&[1 << (2 * n)]));
    }
    for (n, one) in [(14, 4_096), (15, 53_248), (24, 141_530_517_504)] {
        assert_eq!(lengths[n], counts(&[(1 << (2 * n)) - one, one]));
    }
}

#[test]
fn no_frame_gives_no_event() {
    let mut source = Random::new(4);
    for _ in 0..100 {
        let (config, choices, spacing) = random(&mut source);
        assert_eq!(tried(config, &choices, spacing, 0), counts(&[1]));
        assert_eq!(merged(config, &choices, spacing, 0), counts(&[1]));
    }
}

#[test]
fn a_value_listed_twice_is_two_choices() {
    let mut source = Random::new(5);
    for _ in 0..100 {
        let (config, choices, spacing) = random(&mut source);
        let twice = [&choices[..], &choices].concat();
        let (once, twice) = [&choices, &twice]
            .map(|choices| by_length(config, choices, spacing, 12))
            .into();
        for (n, (once, twice)) in once.iter().zip(twice).enumerate() {
            assert_eq!(once.map(|count| count << n), twice);
        }
    }
}

/// Moving, a burst, stillness, the event; the next frame ends the refractory time and starts nothing.
#[test]
fn an_event_takes_four_frames_and_the_next_one_five() {
    let mut source = Random::new(6);
    let mut reached = [false; LONGEST as usize + 1];
    for _ in 0..150 {
        let (config, choices, spacing) = random(&mut source);
        for (n, counts) in by_length(config, &choices, spacing, LONGEST)
            .iter()
            .enumerate()
        {
            let (events, most) = (most_events(counts), (n + 1) / 5);
            assert!(events <= most, "{config:?} {choices:?} {spacing} {n}");
            reached[n] |= events == most;
        }
    }
    assert_eq!(reached, [true; LONGEST as usize + 1]);
}

#[test]
fn limits() {
    let asked = |len: usize, spacing, n| {
        let choices = &[EXAMPLE, EXAMPLE].concat()[..len];
        chances(DEFAULT, choices, spacing, n)
    };
    for len in [0, MOST_CHOICES + 1, 8] {
        assert_eq!(asked(len, SECOND, 1), Chances::REFUSED);
    }
    for n in [LONGEST + 1, u64::MAX] {
        assert_eq!(asked(1, SECOND, n), Chances::REFUSED);
    }
    for spacing in [LARGEST_SPACING + 1, u64::MAX] {
        assert_eq!(asked(1, spacing, 0), Chances::REFUSED);
    }
    assert_eq!(Chances::REFUSED.refusal, 13);
    assert_eq!(Chances::REFUSED.counts, counts(&[]));
    let edge = asked(MOST_CHOICES, LARGEST_SPACING, LONGEST);
    assert_eq!((edge.refusal, edge.counts.iter().sum()), (0, 1u64 << 48));
}

/// The number behind a word of a line.
fn number(line: &str, word: &str) -> u64 {
    let mut words = line.split(' ').skip_while(|w| *w != word);
    words.nth(1).unwrap().parse().unwrap()
}

#[test]
fn the_lines_of_a_length_total_all_sequences() {
    let mut totals: HashMap<u64, u64> = HashMap::new();
    for line in lines().lines() {
        let n = number(line, "frames");
        assert_eq!(number(line, "of"), 4u64.pow(n as u32));
        *totals.entry(n).or_default() += number(line, "count");
    }
    let expected = (0..=LONGEST).map(|n| (n, 4u64.pow(n as u32)));
    assert_eq!(totals, expected.collect());
}

#[test]
fn fractions_are_in_lowest_terms_and_probabilities_rounded_down() {
    for line in lines().lines() {
        let words: Vec<&str> = line.split(' ').collect();
        let (count, total) = (number(line, "count"), number(line, "of"));
        let (a, b) = words[9].split_once('/').unwrap();
        let (a, b): (u64, u64) = (a.parse().unwrap(), b.parse().unwrap());
        assert_eq!(common(a, b), 1);
        assert_eq!(
            u128::from(a) * u128::from(total),
            u128::from(b) * u128::from(count)
        );
        let (whole, places) = words[11].split_once('.').unwrap();
        assert_eq!(places.len(), 12);
        let told: u128 = format!("{whole}{places}").parse().unwrap();
        let true_times_b = u128::from(a) * 1_000_000_000_000;
        assert!(told * u128::from(b) <= true_times_b);
        assert!(true_times_b < (told + 1) * u128::from(b));
    }
}

#[test]
fn the_line_of_length_14() {
    let line =
        "frames 14 events 1 count 4096 of 268435456 fraction 1/65536 probability 0.000015258789";
    assert!(lines().lines().any(|l| l == line));
}

#[test]
fn the_recorded_lines_are_these() {
    let path = concat!(env!("CARGO_MANIFEST_DIR"), "/../crates/fallchances/stdout");
    assert!(
        std::fs::read_to_string(path).unwrap() == lines(),
        "crates/fallchances/stdout is not what `record fallchances` writes"
    );
}

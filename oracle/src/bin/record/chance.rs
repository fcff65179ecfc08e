//! An input is the settings in 46 bytes, in the order of `FallConfig`, the spacing in 8, the length in 8 and then the
//! choices, two bytes each, to the end of the input, at most 8 of them; the low byte first. Its line is `refused 13`, or
//! `chances` and the counts for 0 to 24 events.

use oracle::chance::{
    self, EXAMPLE, LARGEST_SPACING, LONGEST, MOST_CHOICES, SECOND, chances, merged, most_events,
};
use oracle::layout::fall_to_bytes;
use oracle::radar::fall::FallConfig;
use oracle::random::Random;

use super::Cases;

/// In frames.
const SHORT: u64 = 8;

pub fn cases() -> Cases {
    let random = &mut Random::new(1);
    let mut cases = Cases::default();
    let default = FallConfig::normalised_default();
    for n in 0..=LONGEST {
        case(&mut cases, default, &EXAMPLE, SECOND, n);
    }
    for _ in 0..50 {
        let (config, choices, spacing) = chance::random(random);
        let n = random.between(1, SHORT);
        case(&mut cases, config, &choices, spacing, n);
    }
    for _ in 0..15 {
        let (config, choices, spacing) = chance::random(random);
        let n = random.between(SHORT + 1, LONGEST);
        case(&mut cases, config, &choices, spacing, n);
    }
    for events in 1..=5 {
        eventful(&mut cases, random, events);
    }
    edges(&mut cases);
    refused(&mut cases);
    cases
}

fn case(cases: &mut Cases, config: FallConfig, choices: &[u16], spacing: u64, n: u64) {
    let input = [
        fall_to_bytes(&config),
        spacing.to_le_bytes().to_vec(),
        n.to_le_bytes().to_vec(),
        choices.iter().flat_map(|c| c.to_le_bytes()).collect(),
    ];
    let answer = chances(config, choices, spacing, n);
    let line = match answer.refusal {
        0 => answer
            .counts
            .iter()
            .fold("chances".to_string(), |line, count| {
                line + &format!(" {count}")
            }),
        refusal => format!("refused {refusal}"),
    };
    cases.add(&input.concat(), &line);
}

/// Eight with just so many events at the most.
fn eventful(cases: &mut Cases, random: &mut Random, events: usize) {
    let mut left = 8;
    while left > 0 {
        let (config, choices, spacing) = chance::random(random);
        let n = random.between(4, LONGEST);
        if most_events(&merged(config, &choices, spacing, n)) == events {
            case(cases, config, &choices, spacing, n);
            left -= 1;
        }
    }
}

/// Each limit at its edge, and a value listed four times.
fn edges(cases: &mut Cases) {
    let default = FallConfig::normalised_default();
    for choices in [&[30, 232][..], &[32], &[232; MOST_CHOICES], &EXAMPLE] {
        for (spacing, n) in [
            (0, LONGEST),
            (LARGEST_SPACING, LONGEST),
            (LARGEST_SPACING, 0),
        ] {
            case(cases, default, choices, spacing, n);
        }
    }
}

/// Each limit left by one and by more, alone and together.
fn refused(cases: &mut Cases) {
    let default = FallConfig::normalised_default();
    let many = [EXAMPLE, EXAMPLE].concat();
    let four = &many[..MOST_CHOICES];
    for choices in [&[], &many[..5], &many[..6], &many] {
        case(cases, default, choices, SECOND, SHORT);
        case(cases, default, choices, 0, 0);
    }
    for n in [LONGEST + 1, LONGEST + 2, 256 + SHORT, 1 << 32, u64::MAX] {
        case(cases, default, four, SECOND, n);
    }
    for spacing in [LARGEST_SPACING + 1, 1 << 32, u64::MAX] {
        case(cases, default, four, spacing, SHORT);
        case(cases, default, four, spacing, 0);
    }
    for choices in [&[][..], &many] {
        case(cases, default, choices, LARGEST_SPACING + 1, SHORT);
        case(cases, default, choices, SECOND, LONGEST + 1);
        case(cases, default, choices, u64::MAX, u64::MAX);
    }
    case(cases, default, four, LARGEST_SPACING + 1, LONGEST + 1);
}

//! A case is a kind byte and what it says:
//!
//! - 0, a layout tag, I/Q bytes: `features ANSWER`, and if there are any, `normalised ANSWER`;
//! - 1, a count, 64 amplitudes, a mean (two bytes each), a variance (four): `normalised ANSWER`.
//!
//! An answer is `COUNT MEAN VARIANCE CHECK`, or `refused NUMBER`; CHECK is the sum over the whole
//! array of amplitude · (place + 1), places from 0. Words have the low byte first.

use oracle::measured::features;
use oracle::radar::csi::{Features, MAX_SUBCARRIERS};
use oracle::random::Random;
use oracle::refusals::COUNT;

use super::Cases;

const TAGS: [u8; 4] = [1, 2, 3, 4];
const NEED: usize = 2 * MAX_SUBCARRIERS;

pub fn cases() -> Cases {
    let random = &mut Random::new(1);
    let mut cases = Cases::default();
    for iq in bench_frames() {
        for tag in TAGS {
            frame(&mut cases, &iq, tag);
        }
    }
    for tag in [0, 5, 127, 128, 255] {
        frame(&mut cases, &random.bytes(NEED), tag);
        frame(&mut cases, &[], tag);
    }
    for length in [0, 1, 2, 64, NEED - 2, NEED - 1, NEED, NEED + 1, 300] {
        for tag in TAGS {
            frame(&mut cases, &random.bytes(length), tag);
        }
    }
    for shift in 0..7 {
        let iq: Vec<u8> = (0..NEED)
            .map(|_| ((random.byte() as i8) >> shift) as u8)
            .collect();
        for tag in TAGS {
            frame(&mut cases, &iq, tag);
        }
    }
    bench_features()
        .into_iter()
        .chain((0..60).map(|_| random_features(random)))
        .for_each(|f| hand_made(&mut cases, &f));
    cases
}

/// Document 01's pairs at every entry, and one entry after the other that alone is not 0.
fn bench_frames() -> Vec<Vec<u8>> {
    let pairs = [(3, 4), (128, 128), (0, 0), (0, 127), (255, 1)];
    let mut frames: Vec<Vec<u8>> = pairs
        .iter()
        .map(|&(im, re)| [im, re].repeat(MAX_SUBCARRIERS))
        .collect();
    for entry in [
        0, 1, 3, 4, 26, 27, 28, 29, 31, 32, 33, 35, 36, 37, 38, 60, 61, 63,
    ] {
        let mut iq = vec![0; NEED];
        iq[2 * entry] = 128;
        iq[2 * entry + 1] = 100;
        frames.push(iq);
    }
    frames
}

/// Document 01's normalised features, and those at the limits.
fn bench_features() -> Vec<Features> {
    let made = |amplitudes: &[u16], count| {
        let mut amplitude = [0; MAX_SUBCARRIERS];
        amplitude[..amplitudes.len()].copy_from_slice(amplitudes);
        Features {
            amplitude,
            count,
            mean: 77,
            variance: 1_000_000,
        }
    };
    let mut all = vec![made(&[10, 20, 30, 40], 4), made(&[0, 7], 64)];
    for count in [0, 1, 2, 3, 32, 63, 64, 65, 128, 255] {
        all.push(made(&[65535; MAX_SUBCARRIERS], count));
        all.push(made(&[0, 0, 65535], count));
        all.push(made(&[1, 65535, 2], count));
        all.push(made(&[], count));
    }
    all
}

fn random_features(random: &mut Random) -> Features {
    let bits = random.between(1, 16);
    Features {
        amplitude: std::array::from_fn(|_| (random.word() & ((1 << bits) - 1)) as u16),
        count: random.between(0, 64) as u8,
        mean: random.word() as u16,
        variance: random.word() as u32,
    }
}

fn frame(cases: &mut Cases, iq: &[u8], tag: u8) {
    let answer = match features(iq, tag) {
        Err(number) => format!("features refused {number}"),
        Ok(f) => format!("features{} normalised{}", text(&f), text(&f.normalised())),
    };
    cases.add(&[&[0, tag], iq].concat(), &answer);
}

fn hand_made(cases: &mut Cases, f: &Features) {
    let mut input = vec![1, f.count];
    input.extend(f.amplitude.iter().flat_map(|a| a.to_le_bytes()));
    input.extend(f.mean.to_le_bytes());
    input.extend(f.variance.to_le_bytes());
    // The Rust takes the first 64 of a larger count, which document 01 refuses.
    let answer = if usize::from(f.count) > MAX_SUBCARRIERS {
        format!(" refused {COUNT}")
    } else {
        text(&f.normalised())
    };
    cases.add(&input, &format!("normalised{answer}"));
}

fn text(f: &Features) -> String {
    let check: u64 = (1..)
        .zip(&f.amplitude)
        .map(|(place, &a)| place * u64::from(a))
        .sum();
    format!(" {} {} {} {check}", f.count, f.mean, f.variance)
}

//! Features and normalised features against the Rust: `compare_csi [seed] [random inputs]`.

use std::process::ExitCode;

use oracle::argument;
use oracle::differ::{self, Differ};
use oracle::measured::{Exported, Measured, features};
use oracle::radar::csi::{Features, MAX_SUBCARRIERS};
use oracle::random::Random;
use oracle::refusals::COUNT;
use oracle::timer::ratio_over;

unsafe extern "C" {
    fn csi_features(iq: *const u8, iq_len: usize, tag: u8) -> Measured;
    fn csi_normalised(f: Exported) -> Measured;
    fn csi_watched(iq: *const u8, iq_len: usize, tag: u8) -> Measured;
}

/// The I/Q bytes that every layout needs, and the highest tag.
const NEED: usize = 2 * MAX_SUBCARRIERS;
const TAGS: u8 = 4;

fn features_ours(iq: &[u8], tag: u8) -> Measured {
    unsafe { csi_features(iq.as_ptr(), iq.len(), tag) }
}

fn watched_ours(iq: &[u8], tag: u8) -> Measured {
    unsafe { csi_watched(iq.as_ptr(), iq.len(), tag) }
}

/// The Rust takes the first 64 of a count above 64, which document 01 refuses.
fn normalised_rust(f: &Features) -> Measured {
    let legal = usize::from(f.count) <= MAX_SUBCARRIERS;
    legal.then(|| f.normalised()).ok_or(COUNT).into()
}

fn normalised_ours(f: &Features) -> Measured {
    unsafe { csi_normalised((*f).into()) }
}

/// Features and normalised features of the bytes under a tag.
fn compare_frame(differ: &mut Differ, iq: &[u8], tag: u8) {
    let rust = features(iq, tag);
    differ.compare(&(tag, iq), &rust.into(), &features_ours(iq, tag));
    let rust = rust.map(|f| f.normalised());
    differ.compare(&(tag, iq, "watched"), &rust.into(), &watched_ours(iq, tag));
}

fn compare_normalised(differ: &mut Differ, f: &Features) {
    differ.compare(f, &normalised_rust(f), &normalised_ours(f));
}

/// Every pair of I/Q bytes, at an entry that all layouts use.
fn every_pair(differ: &mut Differ) {
    for im in 0..=255 {
        for re in 0..=255 {
            compare_frame(differ, &[im, re].repeat(MAX_SUBCARRIERS), TAGS);
        }
    }
}

/// Every length around what is needed under every tag, of bytes of each kind.
fn every_length(differ: &mut Differ, random: &mut Random) {
    for length in (0..4).chain(NEED - 6..NEED + 7).chain([255, 256, 1000]) {
        for tag in 0..=255 {
            for value in [0, 1, 127, 128, 255] {
                compare_frame(differ, &vec![value; length], tag);
            }
            compare_frame(differ, &random.bytes(length), tag);
        }
    }
}

/// Frames of which one entry alone is not 0, at each place.
fn every_place(differ: &mut Differ) {
    for tag in 1..=TAGS {
        for place in 0..NEED {
            for value in [1, 127, 128, 255] {
                let mut iq = [0; NEED];
                iq[place] = value;
                compare_frame(differ, &iq, tag);
            }
        }
    }
}

/// Bytes of random sizes: of any value, near 0, of few values, or at the ends.
fn random_frame(random: &mut Random) -> Vec<u8> {
    let shift = random.below(8);
    let base = random.byte();
    (0..NEED)
        .map(|_| match shift {
            0 => random.pick(&[127, 128, 129, 255, 0]),
            1 => base,
            _ => ((random.byte() as i8) >> (shift - 2)) as u8,
        })
        .collect()
}

/// Hand-made features at the limits: counts, amplitudes all equal, one alone, one unlike the others.
fn every_count(differ: &mut Differ) {
    for count in (0..=66).chain([127, 128, 254, 255]) {
        for value in [0, 1, 2, 723, 724, 1024, 32767, 32768, 65534, 65535] {
            let all = Features {
                amplitude: [value; MAX_SUBCARRIERS],
                count,
                mean: value,
                variance: u32::MAX,
            };
            compare_normalised(differ, &all);
            for place in 0..MAX_SUBCARRIERS {
                for other in [0, 1, 65535] {
                    let mut f = all;
                    f.amplitude[place] = other;
                    compare_normalised(differ, &f);
                    f.amplitude = [other; MAX_SUBCARRIERS];
                    f.amplitude[place] = value;
                    compare_normalised(differ, &f);
                }
            }
        }
    }
}

fn random_features(random: &mut Random) -> Features {
    let size = random.below(17);
    let amplitude = std::array::from_fn(|_| {
        let bits = if size == 16 { random.below(17) } else { size };
        (random.word() & ((1 << bits) - 1)) as u16
    });
    Features {
        amplitude,
        count: match random.below(8) {
            0 => random.byte(),
            _ => random.between(0, 64) as u8,
        },
        mean: random.word() as u16,
        variance: random.word() as u32,
    }
}

/// Prints the times of features, of normalised features and of both as ratios to the Rust's.
fn measure(random: &mut Random) {
    for tag in 1..=TAGS {
        let frames: Vec<Vec<u8>> = (0..4000).map(|_| random.bytes(NEED)).collect();
        let both = ratio_over(
            &frames,
            |iq| features(iq, tag).map(|f| f.normalised()),
            |iq| watched_ours(iq, tag),
        );
        println!("tag {tag}, features and normalised: {both}");
        let first = ratio_over(&frames, |iq| features(iq, tag), |iq| features_ours(iq, tag));
        println!("tag {tag}, features: {first}");
        let ready: Vec<Features> = frames.iter().map(|iq| features(iq, tag).unwrap()).collect();
        let second = ratio_over(&ready, |f| f.normalised(), normalised_ours);
        println!("tag {tag}, normalised: {second}");
    }
}

fn main() -> ExitCode {
    differ::compare("csi", |differ, random| {
        every_pair(differ);
        every_length(differ, random);
        every_place(differ);
        every_count(differ);
        for _ in 0..argument(2, 500_000) {
            let tag = random.between(1, TAGS.into()) as u8;
            compare_frame(differ, &random_frame(random), tag);
            compare_normalised(differ, &random_features(random));
        }
        measure(random);
    })
}

//! Angles and phases against the Rust: `compare_phase [seed] [random frames]`.

use std::hint::black_box;
use std::process::ExitCode;

use oracle::argument;
use oracle::differ::{self, Differ};
use oracle::errors::{Errors, pairs};
use oracle::floored;
use oracle::measured::{frame, phases, put_angles, signed, whole};
use oracle::radar::csi::MAX_SUBCARRIERS;
use oracle::radar::csi_stream::{MAX_IQ, layout_of};
use oracle::radar::phase::{Phases, atan2_brad};
use oracle::random::Random;
use oracle::refusals::COUNT;
use oracle::timer::ratio;

#[repr(C)]
#[derive(Debug, Clone, Copy)]
struct Angles {
    angle: [i16; MAX_SUBCARRIERS],
    count: u8,
}

#[repr(C)]
struct Phase {
    phase: [i16; MAX_SUBCARRIERS],
    count: u8,
}

#[repr(C)]
struct Measured {
    refusal: u8,
    phases: Phase,
}

unsafe extern "C" {
    fn phase_atan2_brad(y: i8, x: i8) -> i16;
    fn phase_phases(iq: *const u8, iq_len: usize, tag: u8) -> Measured;
    fn phase_of_angles(angles: Angles) -> Measured;
}

/// The refusal, or 0 with the phases: the whole array, and how many are in use.
type Answer = (u8, [i16; MAX_SUBCARRIERS], u8);

fn rust(phases: Result<Phases, u8>) -> Answer {
    match phases {
        Ok(Phases { phase, count }) => (0, phase, count),
        Err(refusal) => (refusal, [0; MAX_SUBCARRIERS], 0),
    }
}

fn answer(m: Measured) -> Answer {
    (m.refusal, m.phases.phase, m.phases.count)
}

fn phases_ours(iq: &[u8], tag: u8) -> Answer {
    answer(unsafe { phase_phases(iq.as_ptr(), iq.len(), tag) })
}

fn compare_phases(differ: &mut Differ, iq: &[u8], tag: u8) {
    differ.compare(&(tag, iq), &rust(phases(iq, tag)), &phases_ours(iq, tag));
}

/// Of signed bytes.
fn angle_ours(y: i32, x: i32) -> i16 {
    unsafe { phase_atan2_brad(y as i8, x as i8) }
}

fn every_angle(differ: &mut Differ) {
    for (y, x) in pairs() {
        differ.compare(&(y, x), &atan2_brad(y, x), &angle_ours(y, x));
    }
}

/// Prints how far all angles are from the true ones: the Rust's, whose index is rounded down, and ours.
fn lean() {
    let [floored, ours] = [floored::atan2_brad, angle_ours].map(Errors::of);
    println!("errors of all angles, index rounded down: {floored}");
    println!("errors of our angles: {ours}");
}

/// A frame's bytes, one of several sorts.
fn bytes(random: &mut Random, n: usize) -> Vec<u8> {
    let extremes = [0, 1, 127, 128, 129, 255];
    match random.below(6) {
        0 => vec![random.byte(); n],
        1 => vec![random.pick(&extremes); n],
        2 => (0..n).map(|_| random.pick(&extremes)).collect(),
        3 => (0..n).map(|_| random.below(9) as u8).collect(),
        4 => smooth(random, n),
        _ => random.bytes(n),
    }
}

/// Bytes as a radio gives them: an angle that moves on evenly, and some noise.
fn smooth(random: &mut Random, n: usize) -> Vec<u8> {
    let start = random.below(6283) as f64 / 1000.0;
    let step = random.below(2000) as f64 / 1000.0 - 1.0;
    let size = random.between(10, 110) as f64;
    let entry = |k| {
        let angle = start + step * (k / 2) as f64;
        let part = if k % 2 == 0 { angle.sin() } else { angle.cos() };
        let noise = random.below(9) as f64 - 4.0;
        (size * part + noise) as i8 as u8
    };
    (0..n).map(entry).collect()
}

/// Every tag with every length around what a layout needs.
fn every_tag(differ: &mut Differ, random: &mut Random) {
    for tag in 0..=u8::MAX {
        for n in (0..4).chain(MAX_IQ - 4..=MAX_IQ + 4).chain([255, 256, 300]) {
            compare_phases(differ, &bytes(random, n), tag);
        }
    }
    for tag in 1..=4 {
        for n in 0..=300 {
            compare_phases(differ, &bytes(random, n), tag);
        }
    }
}

/// Hand-made angles of every count. The Rust takes them as the I/Q bytes that have them, with a layout of so many entries;
/// what stands behind the angles in use must not show.
fn every_count(differ: &mut Differ, random: &mut Random) {
    for count in 0..=u8::MAX {
        let n = usize::from(count);
        let layout = whole(n);
        for _ in 0..100 {
            let iq = bytes(random, 2 * n);
            let mut angle = [0; MAX_SUBCARRIERS];
            angle.fill_with(|| random.word() as i16);
            put_angles(&mut angle, &iq);
            let angles = Angles { angle, count };
            let ours = answer(unsafe { phase_of_angles(angles) });
            let phases = frame(signed(&iq)).phases(&layout).map_err(|_| COUNT);
            differ.compare(&angles, &rust(phases), &ours);
        }
    }
}

/// Prints the times of whole frames as ratios to the Rust's: frames of random bytes, and frames as a radio gives them.
/// A round is short, so that few of the many are interrupted.
fn measure(random: &mut Random) {
    for (sort, make) in [
        ("random", Random::bytes as fn(&mut Random, usize) -> Vec<u8>),
        ("smooth", smooth),
    ] {
        for tag in 1..=4 {
            let layout = layout_of(tag).unwrap();
            let frames: Vec<Vec<u8>> = (0..2_000).map(|_| make(random, MAX_IQ)).collect();
            let rust = || {
                for iq in &frames {
                    let _ = black_box(frame(signed(black_box(iq))).phases(layout));
                }
            };
            let ours = || {
                for iq in &frames {
                    black_box(unsafe { phase_phases(iq.as_ptr(), iq.len(), tag) });
                }
            };
            println!("{sort} frames, tag {tag}: {}", ratio(201, rust, ours));
        }
    }
}

fn main() -> ExitCode {
    differ::compare("phase", |differ, random| {
        every_angle(differ);
        lean();
        every_tag(differ, random);
        every_count(differ, random);
        for _ in 0..argument(2, 1_000_000) {
            let n = if random.one_in(8) { 127 } else { MAX_IQ };
            let tag = random.between(0, 5) as u8;
            compare_phases(differ, &bytes(random, n), tag);
        }
        measure(random);
    })
}

//! A case's first byte says what it is; its line is what the Rust answers:
//!
//! - 0, then two signed bytes y and x: `angle A`;
//! - 1, then a layout tag and I/Q bytes: `phases COUNT` and the 64 phases, or `refused NUMBER`;
//! - 2, then a count and 64 angles (low byte first): the same. The Rust gets the I/Q bytes that have these angles, with a layout of so many entries.

use oracle::measured::{frame, phases, put_angles, signed, whole};
use oracle::radar::csi::MAX_SUBCARRIERS;
use oracle::radar::csi_stream::MAX_IQ;
use oracle::radar::phase::{Phases, atan2_brad};
use oracle::random::Random;
use oracle::refusals::COUNT;

use super::Cases;

pub fn cases() -> Cases {
    let random = &mut Random::new(1);
    let mut cases = Cases::default();
    angles(&mut cases, random);
    samples(&mut cases, random);
    hand_made(&mut cases, random);
    cases
}

/// The bench cases of document 01, then every pair of extremes, then random pairs.
fn angles(cases: &mut Cases, random: &mut Random) {
    let mut add = |y: i8, x: i8| {
        let answer = atan2_brad(i32::from(y), i32::from(x));
        cases.add(&[0, y as u8, x as u8], &format!("angle {answer}"));
    };
    [(0, 0), (0, -1), (-1, -64)]
        .into_iter()
        .for_each(|(y, x)| add(y, x));
    let extremes = [-128, -127, -65, -64, -1, 0, 1, 2, 63, 64, 127];
    for y in extremes {
        for x in extremes {
            add(y, x);
        }
    }
    for _ in 0..200 {
        add(random.byte() as i8, random.byte() as i8);
    }
}

/// Every known tag and two that are not, with bytes of several sorts and lengths around what a layout needs.
fn samples(cases: &mut Cases, random: &mut Random) {
    for tag in [0, 1, 2, 3, 4, 5, 255] {
        for sort in 0..5 {
            add_sample(cases, tag, &bytes(random, sort, MAX_IQ));
        }
        for length in [0, 1, MAX_IQ - 1, MAX_IQ + 1, 2 * MAX_IQ] {
            add_sample(cases, tag, &bytes(random, 4, length));
        }
    }
}

fn add_sample(cases: &mut Cases, tag: u8, iq: &[u8]) {
    cases.add(&[&[1, tag], iq].concat(), &line(phases(iq, tag)));
}

/// Every count to 66, and the largest. What stands behind the angles in use is not 0.
fn hand_made(cases: &mut Cases, random: &mut Random) {
    for count in (0..=66).chain([128, 255]) {
        let n = usize::from(count);
        let iq = bytes(random, u64::from(count) % 5, 2 * n);
        let mut angle = [-1; MAX_SUBCARRIERS];
        put_angles(&mut angle, &iq);
        let mut input = vec![2, count];
        input.extend(angle.iter().flat_map(|a: &i16| a.to_le_bytes()));
        let phases = frame(signed(&iq)).phases(&whole(n));
        cases.add(&input, &line(phases.map_err(|_| COUNT)));
    }
}

/// Bytes that are all one, extremes, an angle that goes round, small, or random.
fn bytes(random: &mut Random, sort: u64, n: usize) -> Vec<u8> {
    let step = random.between(100, 12_000) as f64 / 10_000.0;
    let part = |k: usize| match k % 2 {
        0 => (step * (k / 2) as f64).sin(),
        _ => (step * (k / 2) as f64).cos(),
    };
    match sort {
        0 => vec![random.byte(); n],
        1 => (0..n).map(|_| random.pick(&[0, 127, 128, 255])).collect(),
        2 => (0..n).map(|k| (100.0 * part(k)) as i8 as u8).collect(),
        3 => (0..n).map(|_| random.below(5) as u8).collect(),
        _ => random.bytes(n),
    }
}

fn line(phases: Result<Phases, u8>) -> String {
    match phases {
        Ok(p) => {
            let each = p.phase.map(|a| a.to_string()).join(" ");
            format!("phases {} {each}", p.count)
        }
        Err(number) => format!("refused {number}"),
    }
}

//! Our pace beside the Rust's.

use std::f64::consts::TAU;
use std::hint::black_box;

use oracle::Micros;
use oracle::radar::csi::Features;
use oracle::radar::vitals::VitalsEstimator;
use oracle::random::Random;
use oracle::timer::ratio;

use crate::calls::{self, Config, Frame, NEW, Ours};

/// Frames at 50 Hz, 56 columns: breathing of 15 and a heart of 72 a minute, and noise.
fn resting(random: &mut Random, frames: usize) -> Vec<Frame> {
    let phase = [(); 56].map(|()| random.below(1000) as f64 / 1000.0);
    let wave = |turns: f64| (TAU * turns).sin();
    (0..frames)
        .map(|i| {
            let at = i as f64 / 50.0;
            let amplitudes = phase.map(|p| {
                let body = 30.0 * wave(at * 0.25 + p) + 6.0 * wave(at * 1.2 + p);
                (1024.0 + body + random.below(9) as f64) as u16
            });
            Frame::of(&amplitudes, 20_000 * i as u64)
        })
        .collect()
}

/// New estimators fed by pushes against the Rust's, N 128 and 56 columns.
pub fn measure(random: &mut Random) {
    let frames = resting(random, 10_000);
    let features: Vec<Features> = frames.iter().map(Frame::features).collect();
    let never = |c: Config| Config {
        update_every: 65_535,
        ..c
    };
    let (breathing, heart) = (calls::breathing(50), calls::heart(50));
    let slow = Config {
        decim: 32_767,
        ..breathing
    };
    for (name, configs) in [
        ("breathing", vec![breathing]),
        ("heart", vec![heart]),
        ("breathing and heart", vec![breathing, heart]),
        ("neither due", vec![never(breathing), never(heart)]),
        ("blocks open", vec![slow]),
    ] {
        let ours = |&c| Ours::new(random, 128, c);
        let mut all: Vec<Ours> = configs.iter().map(ours).collect();
        let ratio = ratio(
            15,
            || {
                for &c in &configs {
                    let mut rust = VitalsEstimator::<128>::new(c.into());
                    for (f, frame) in features.iter().zip(&frames) {
                        let f = black_box(f);
                        black_box(rust.push(f, Micros(frame.time)));
                    }
                }
            },
            || {
                for ours in &mut all {
                    ours.state = NEW;
                    for &frame in &frames {
                        ours.state = black_box(ours.push(black_box(frame))).state;
                    }
                }
            },
        );
        println!("10,000 frames, N 128, 56 columns, {name}: {ratio}");
    }
}

//! The bench cases of document 01, asked of the Rust.

use oracle::Micros;
use oracle::detectors;
use oracle::frames::Frame;
use oracle::measured::{frame, of_variance};
use oracle::radar::csi::{Config, Features, Layout, MAX_SUBCARRIERS};
use oracle::radar::csi_stream::Sample;
use oracle::radar::fingerprint::Baseline;
use oracle::radar::phase::{PhaseConfig, atan2_brad};
use oracle::radar::vitals::Band;

const NOW: Micros = Micros::ZERO;

/// Features with these amplitudes; mean and variance are left out.
fn features(amplitudes: &[u16]) -> Features {
    Frame::of(amplitudes, 0).features()
}

fn amplitude(im: i8, re: i8) -> u16 {
    let iq = [im, re].repeat(MAX_SUBCARRIERS);
    let features = frame(&iq).features(&Layout::DENSE_64);
    features.unwrap().amplitude[0]
}

#[test]
fn amplitudes() {
    assert_eq!(amplitude(3, 4), 20);
    assert_eq!(amplitude(-128, -128), 724);
}

#[test]
fn angles() {
    assert_eq!(atan2_brad(0, 0), 0);
    assert_eq!(atan2_brad(0, -1), -32_768);
    assert_eq!(atan2_brad(-1, -64), -32_605);
}

#[test]
fn normalised() {
    let four = features(&[10, 20, 30, 40]).normalised();
    assert_eq!(four.amplitudes(), [409, 819, 1228, 1638]);
    assert_eq!((four.mean, four.variance), (1023, 209_715));
    let mut one = [0; MAX_SUBCARRIERS];
    one[17] = 1;
    assert_eq!(features(&one).normalised().amplitude[17], 65_535);
}

/// The wander after all these rows of one column.
fn wander(rows: &[u16]) -> u16 {
    let mut presence = detectors::presence(rows.len(), Config::default());
    for row in rows {
        presence.push(&features(&[*row]), NOW);
    }
    presence.wander()
}

#[test]
fn presence() {
    assert_eq!(wander(&[1000, 1010]), 4);
}

#[test]
fn presence_in_the_largest_window() {
    let rows = [vec![0; 4096], vec![65_535; 4096]].concat();
    let deep = std::thread::Builder::new().stack_size(1 << 24);
    let wander = deep.spawn(move || wander(&rows)).unwrap().join().unwrap();
    assert_eq!(wander, 1000);
}

#[test]
fn phase() {
    let mut phase = detectors::phase(2, PhaseConfig::default());
    for angle in [0, -32_768] {
        phase.push(&Frame::of(&[angle], 0).phases(), NOW);
    }
    assert_eq!(phase.wander(), 1_000_000);
}

#[test]
fn lags() {
    assert_eq!(Band::BREATHING.lags(10), (18, 67));
    assert_eq!(Band::HEART.lags(25), (11, 36));
}

#[test]
fn distance() {
    let mut baseline = Baseline::new();
    baseline.calibrate(&of_variance(1, 100));
    baseline.calibrate(&of_variance(1, 101));
    assert_eq!(baseline.distance(&of_variance(1, 150)), 500);
}

#[test]
fn samples() {
    let record = |length: usize, n| {
        let mut record = vec![0; length];
        record[0] = 1;
        record.iter_mut().skip(12).take(1).for_each(|b| *b = n);
        Sample::decode(&record)
    };
    assert!(record(12, 0).is_err());
    assert_eq!(record(13, 0).unwrap().len, 0);
    assert!(record(142, 129).is_err());
}

//! docs/swap.svg draws detectors that tell boards apart by their number of subcarriers by giving the
//! room the new board's entries at the old board's places. Here that is held against the Rust's
//! detectors themselves, made once and fed the samples as the boards sent them.

#[allow(dead_code)]
#[path = "../../gateway/examples/swap/radio.rs"]
mod radio;

use oracle::Micros;
use oracle::radar::csi::{CsiFrame, PresenceDetector, Verdict};
use oracle::radar::csi_stream::{MAX_ENCODED_LEN, Sample, layout_of};
use oracle::radar::fall::FallDetector;
use oracle::radar::fingerprint::Baseline;
use oracle::radar::phase::PhaseDetector;
use oracle::radar::vitals::VitalsEstimator;
use oracle::room::{Answer, CALIBRATE, PlainRoom, WATCH, Watched};
use oracle::settings::Settings;
use radio::{Heard, SWAPS};

/// The Rust's detectors, never renewed. The sizes are those of roomlines.
struct Kept {
    presence: PresenceDetector<50>,
    phase: PhaseDetector<50>,
    breathing: VitalsEstimator<128>,
    heart: VitalsEstimator<128>,
    fall: FallDetector,
    baseline: Baseline,
}

impl Kept {
    fn new(settings: Settings) -> Self {
        Kept {
            presence: PresenceDetector::new(settings.presence),
            phase: PhaseDetector::new(settings.phase),
            breathing: VitalsEstimator::new(settings.breathing),
            heart: VitalsEstimator::new(settings.heart),
            fall: FallDetector::new(settings.fall),
            baseline: Baseline::new(),
        }
    }

    fn push(&mut self, heard: &Heard) -> Answer {
        let layout = layout_of(heard.tag).unwrap();
        let now = Micros(heard.at);
        let frame = CsiFrame {
            timestamp: now,
            rssi: 0,
            channel: 0,
            iq: &heard.iq,
        };
        let features = frame.features(layout).unwrap().normalised();
        if heard.calibrates {
            self.baseline.calibrate(&features);
            return Answer::Calibrate {
                frames: self.baseline.frames(),
                mean: self.baseline.mean(),
            };
        }
        let presence = self.presence.push(&features, now);
        let phase = self.phase.push(&frame.phases(layout).unwrap(), now);
        let permille = self.presence.wander();
        let warm = presence != Verdict::Warming;
        Answer::Watch(Watched {
            verdict: presence.either(phase),
            permille,
            ppm: self.phase.wander(),
            breathing: self.breathing.push(&features, now),
            heart: self.heart.push(&features, now),
            fall: warm.then(|| self.fall.push(permille, now)).flatten(),
            distance: self.baseline.distance(&features),
        })
    }
}

/// The record of a sample, by the Rust's encoder.
fn record(heard: &Heard) -> Vec<u8> {
    let sample = Sample::from_iq(Micros(heard.at), 0, 0, heard.tag, &heard.iq).unwrap();
    let mut record = vec![0; 1 + MAX_ENCODED_LEN];
    record[0] = if heard.calibrates { CALIBRATE } else { WATCH };
    sample.encode(&mut record[1..]).unwrap();
    record
}

fn answers<'a>(samples: impl Iterator<Item = &'a Heard>) -> Vec<Answer> {
    let records: Vec<u8> = samples.flat_map(record).collect();
    PlainRoom::new(Settings::roomlines())
        .run(&records, usize::MAX)
        .0
}

#[test]
fn by_number_alone_is_the_rust_never_renewed() {
    for (name, scenes) in SWAPS {
        let heard = radio::heard(&scenes);
        let alone: Vec<Heard> = heard.iter().map(radio::by_number_alone).collect();
        let mut kept = Kept::new(Settings::roomlines());
        let due: Vec<Answer> = heard.iter().map(|sample| kept.push(sample)).collect();
        assert_eq!(answers(alone.iter()), due, "{name}");
        // The swap tells them apart.
        assert_ne!(answers(heard.iter()), due, "{name}");
    }
}

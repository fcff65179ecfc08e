//! The gateway's settings and answers, read from its sources, against the Rust's presets and the
//! oracle's bytes.

#[allow(dead_code)]
#[path = "../../gateway/src/answer.rs"]
mod answer;
#[allow(dead_code)]
#[path = "../../gateway/src/refusal.rs"]
mod refusal;
#[allow(dead_code)]
#[path = "../../gateway/src/settings.rs"]
mod settings;

use answer::{Answer, Rate, Verdict};
use oracle::layout::{answer_to_bytes, settings_to_bytes};
use oracle::radar::csi;
use oracle::radar::vitals::{Vitals, VitalsConfig};
use oracle::random::Random;
use oracle::room::{self, PlainRoom};
use oracle::settings::Settings;
use oracle::streams::stream;

#[test]
fn presets_are_the_rusts() {
    for hz in (0..=2000).chain([327_670, 655_350]) {
        let due = Settings {
            breathing: VitalsConfig::breathing(hz),
            heart: VitalsConfig::heart(hz),
            ..Settings::roomlines()
        };
        let ours = settings::Settings::new(hz);
        assert_eq!(ours.to_bytes()[..], settings_to_bytes(&due), "{hz} Hz");
        assert_eq!(ours.check().is_ok(), due.in_range(), "{hz} Hz");
    }
}

fn rate(estimate: Option<Vitals>) -> Rate {
    match estimate {
        None => Rate::NotDue,
        Some(v) if v.accepted => Rate::Accepted {
            tenths_per_minute: v.bpm_x10,
        },
        Some(_) => Rate::NotAccepted,
    }
}

/// The gateway's form of an answer.
fn due(answer: room::Answer) -> Answer {
    match answer {
        room::Answer::Reset => Answer::Reset,
        room::Answer::Calibrate { frames, mean } => Answer::Calibrated { frames, mean },
        room::Answer::Refused { number, at } => Answer::Refused {
            number: refusal::Refusal::from_number(number).unwrap(),
            at: at as u64,
        },
        room::Answer::Watch(w) => Answer::Watched {
            verdict: match w.verdict {
                csi::Verdict::Warming => Verdict::Warming,
                csi::Verdict::Absent => Verdict::Absent,
                csi::Verdict::Present { .. } => Verdict::Present,
            },
            motion: w.verdict.motion(),
            permille: w.permille,
            ppm: w.ppm,
            breathing: rate(w.breathing),
            heart: rate(w.heart),
            fall: w.fall.is_some(),
            distance: w.distance,
        },
    }
}

#[test]
fn answers_are_the_rooms() {
    let mut random = Random::new(8);
    let mut compared = 0;
    while compared < 20_000 {
        let settings = Settings {
            w: 5,
            n: 8,
            ..Settings::random(&mut random)
        };
        let records = stream(&mut random, 500);
        for answer in PlainRoom::new(settings).run(&records, usize::MAX).0 {
            let bytes = answer_to_bytes(&answer).try_into().unwrap();
            assert_eq!(Answer::from_bytes(&bytes), Some(due(answer)));
            compared += 1;
        }
    }
}

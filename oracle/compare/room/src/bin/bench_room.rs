//! The room's pace beside the Rust's: `bench_room [frames] [rounds]`.
//!
//! Ours is one run over all frames. The Rust's is the calls that document 01 composes, on the same
//! bytes, built with the same flags. The two are timed in turn; their answers are compared once.
//! The last line is the larger ratio of two scenes; above the limit the driver fails.

use std::hint::black_box;
use std::process::ExitCode;
use std::time::Duration;

use compare_room::unit;
use oracle::argument;
use oracle::layout::{ANSWER_LEN, answer_to_bytes, memory_len, settings_to_bytes};
use oracle::radar::csi::{CsiFrame, PresenceDetector, Verdict};
use oracle::radar::csi_stream::{Sample, TAG_LLTF_20MHZ, layout_of};
use oracle::radar::fall::FallDetector;
use oracle::radar::fingerprint::Baseline;
use oracle::radar::phase::PhaseDetector;
use oracle::radar::vitals::VitalsEstimator;
use oracle::random::Random;
use oracle::room::{Answer, RECORD_LEN, WATCH, Watched};
use oracle::settings::Settings;
use oracle::streams::steady;
use oracle::timer::{FEWEST_ROUNDS, Ratio, median, ratio};

const WINDOW: usize = 50;
const BLOCKS: usize = 128;

/// Our time at most, as a ratio to the Rust's.
const LIMIT: f64 = 2.0;

fn main() -> ExitCode {
    let frames = argument(1, 100_000) as usize;
    let rounds = (argument(2, 7) as usize).max(FEWEST_ROUNDS);
    conditions(frames, rounds);
    for (w, n) in [(1, 4), (50, 128), (200, 200), (8192, 512)] {
        println!(
            "memory at W {w}, N {n}: {} bytes",
            Room::new(w, n).memory.len()
        );
    }
    for w in [50, 8192] {
        let runs = [0, 1, 10, 100, 1000].map(|many| format!("{many}: {:.1?}", run_of(w, many)));
        println!("a run at W {w}, by its records: {}", runs.join(", "));
    }
    boundary(rounds);
    let scenes = [("quiet", false), ("walking", true)].map(|(name, walking)| {
        let records = steady(&mut Random::new(1), 1, walking, frames);
        let found = scene(&records, rounds);
        let each = |time: Duration| time.as_secs_f64() * 1e9 / frames as f64;
        println!(
            "{name}: {frames} frames, a record: rust {:.0} ns, ours {:.0} ns; ratio {:.2} ({:.2} to {:.2})",
            each(found.rust), each(found.ours), found.median, found.least, found.most
        );
        found.median
    });
    let worst = scenes[0].max(scenes[1]);
    println!("ratio {worst:.2}");
    if worst > LIMIT {
        eprintln!("the ratio is above {LIMIT}");
        return ExitCode::FAILURE;
    }
    ExitCode::SUCCESS
}

/// What is measured; `scene` tests what it says of the samples and the answers.
fn conditions(frames: usize, rounds: usize) {
    let Settings { w, n, .. } = Settings::roomlines();
    println!("samples: {frames} in a run, tag 1, rising times");
    println!("settings: those of roomlines, W {w}, N {n}");
    println!("ours: a beginning and one run");
    println!("the Rust: new detectors, and for each sample the calls that docs/SPEC.md composes");
    println!("built: both at optimisation level 3, no processor named");
    println!("timed: one process, by turns, {rounds} rounds; medians, and the range of the ratios");
    println!("answers: compared before; one that differs ends this");
}

/// Our unit with its memory.
struct Room {
    settings: Vec<u8>,
    memory: Vec<u8>,
}

impl Room {
    fn new(w: u16, n: u16) -> Room {
        Room::with(Settings {
            w,
            n,
            ..Settings::roomlines()
        })
    }

    fn with(settings: Settings) -> Room {
        let len = unit::memory_len(&settings_to_bytes(&settings)).len;
        assert_eq!(len, memory_len(&settings));
        let mut room = Room {
            settings: settings_to_bytes(&settings),
            memory: vec![0; len],
        };
        room.begin();
        room
    }

    fn begin(&mut self) {
        assert_eq!(unit::begin(&self.settings, &mut self.memory), 0);
    }

    fn run(&mut self, records: &[u8], answers: &mut [u8]) {
        let ran = unit::run(&mut self.memory, black_box(records), answers);
        assert_eq!((ran.refusal, ran.used), (0, records.len()));
        black_box(answers);
    }
}

/// The Rust's calls, as document 01 composes them.
struct Composed {
    presence: PresenceDetector<WINDOW>,
    phase: PhaseDetector<WINDOW>,
    breathing: VitalsEstimator<BLOCKS>,
    heart: VitalsEstimator<BLOCKS>,
    fall: FallDetector,
    baseline: Baseline,
}

impl Composed {
    fn new(settings: &Settings) -> Composed {
        Composed {
            presence: PresenceDetector::new(settings.presence),
            phase: PhaseDetector::new(settings.phase),
            breathing: VitalsEstimator::new(settings.breathing),
            heart: VitalsEstimator::new(settings.heart),
            fall: FallDetector::new(settings.fall),
            baseline: Baseline::new(),
        }
    }

    fn watch(&mut self, body: &[u8]) -> Watched {
        let sample = Sample::decode(body).expect("it is a sample");
        let features = sample.features().expect("its tag is known").normalised();
        let frame = CsiFrame {
            timestamp: sample.at,
            rssi: sample.rssi,
            channel: sample.channel,
            iq: sample.iq(),
        };
        let layout = layout_of(sample.layout).expect("its tag is known");
        let phases = frame.phases(layout).expect("it has all entries");
        let presence = self.presence.push(&features, sample.at);
        let phase = self.phase.push(&phases, sample.at);
        let permille = self.presence.wander();
        Watched {
            verdict: presence.either(phase),
            permille,
            ppm: self.phase.wander(),
            breathing: self.breathing.push(&features, sample.at),
            heart: self.heart.push(&features, sample.at),
            fall: match presence {
                Verdict::Warming => None,
                _ => self.fall.push(permille, sample.at),
            },
            distance: self.baseline.distance(&features),
        }
    }
}

/// Both times over the same records, from a beginning; first, that the records are what `conditions`
/// says, and that the answers are equal.
fn scene(records: &[u8], rounds: usize) -> Ratio {
    rising(records);
    let settings = Settings::roomlines();
    let mut room = Room::with(settings);
    let mut answers = vec![0; records.len() / RECORD_LEN * ANSWER_LEN];
    room.run(records, &mut answers);
    let mut rust = Composed::new(&settings);
    let both = records
        .chunks_exact(RECORD_LEN)
        .zip(answers.chunks_exact(ANSWER_LEN));
    for (index, (record, ours)) in both.enumerate() {
        let answer = answer_to_bytes(&Answer::Watch(rust.watch(&record[1..])));
        assert_eq!(answer, ours, "frame {index}");
    }
    ratio(
        rounds,
        || {
            let mut rust = Box::new(Composed::new(&settings));
            for record in black_box(records).chunks_exact(RECORD_LEN) {
                black_box(rust.watch(&record[1..]));
            }
        },
        || {
            room.begin();
            room.run(records, &mut answers);
        },
    )
}

/// Samples of tag 1, each later than the one before.
fn rising(records: &[u8]) {
    let mut last = None;
    for record in records.chunks_exact(RECORD_LEN) {
        let sample = Sample::decode(&record[1..]).expect("it is a sample");
        assert_eq!((record[0], sample.layout), (WATCH, TAG_LLTF_20MHZ));
        assert!(last < Some(sample.at));
        last = Some(sample.at);
    }
}

/// A run of so many records on a window that is full: the mean over the records of two seconds at
/// least, and of several such turns the median.
fn run_of(w: u16, many: usize) -> Duration {
    let mut room = Room::new(w, 128);
    let records = steady(&mut Random::new(2), 1, true, usize::from(w).max(1000));
    let mut answers = vec![0; records.len() / RECORD_LEN * ANSWER_LEN];
    room.run(&records, &mut answers);
    let runs = (100 / many.max(1)).max(1);
    let (run, space) = (many * RECORD_LEN, many * ANSWER_LEN);
    let turn = median(25, || {
        for k in 0..runs {
            room.run(&records[k * run..][..run], &mut answers[..space]);
        }
    });
    turn / runs as u32
}

/// What a boundary costs at the longest window: tags that change with every record, against one tag.
/// In either a block ends with every record, and no estimate falls due.
fn boundary(rounds: usize) {
    let mut settings = Settings {
        w: 8192,
        ..Settings::roomlines()
    };
    for rhythm in [&mut settings.breathing, &mut settings.heart] {
        (rhythm.decim, rhythm.update_every) = (1, 65_535);
    }
    let mut room = Room::with(settings);
    let frames = 8000;
    let same = steady(&mut Random::new(3), 2, true, frames);
    let mut changing = same.clone();
    for record in changing.chunks_exact_mut(RECORD_LEN).step_by(2) {
        record[2] = 3;
    }
    let mut answers = vec![0; frames * ANSWER_LEN];
    let mut other = (Room::with(settings), answers.clone());
    let times = ratio(
        3 * rounds,
        || {
            room.begin();
            room.run(&same, &mut answers);
        },
        || {
            other.0.begin();
            other.0.run(&changing, &mut other.1);
        },
    );
    let each = |time: Duration| time.as_secs_f64() * 1e9 / frames as f64;
    let (without, with) = (each(times.rust), each(times.ours));
    println!(
        "a boundary at W 8192: {:.0} ns (a record with one {with:.0} ns, without {without:.0} ns)",
        with - without
    );
}

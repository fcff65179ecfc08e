//! A window has no order: the wander of a full window is the same for every order of its frames, each
//! counted as often as it occurs, whatever came before. The verdict may differ, since it remembers
//! earlier motion.

mod common;

use std::collections::HashSet;
use std::fs;
use std::path::Path;

use common::Random;
use volkjarp::{Answer, IQ_LEN, Micros, Phase, Presence, RECORD_LEN, Record, Room, Sample};
use volkjarp::{Settings, Verdict};

/// The streams of records that the repository has.
const STREAMS: [&str; 2] = ["../samples/room.stream", "../crates/roomlines/stdin"];

/// Samples a second.
const HZ: u32 = 50;

/// From one sample to the next, in microseconds.
const STEP: u64 = 1_000_000 / HZ as u64;

/// Frames of a window.
const WINDOWS: [u16; 7] = [1, 2, 3, 7, 50, 64, 200];

const SEEDS: u64 = 400;

/// Windows that two units are fed, one behind the other.
const ROUNDS: usize = 2;

/// The layout tags: 1 to 4.
const TAGS: usize = 4;

/// I/Q bytes that are set at random, in each sample that is changed.
const CHANGED: usize = 6;

/// Before one watched sample in so many, another is calibrated.
const CALIBRATED: usize = 5;

/// Windows with different verdicts: more than so many.
const DIFFERENT: usize = 50;

/// Thresholds are chosen below these: permille, parts per million, microseconds.
const PERMILLE: usize = 100;
const PPM: usize = 5000;
const HOLD: usize = 5_000_000;

/// The watched samples of a stream that a room accepts; its answers tell where each record stands.
fn watched(stream: &[u8]) -> Vec<Sample> {
    let mut room = Room::new(&Settings::new(HZ)).unwrap();
    let (mut samples, mut at) = (Vec::new(), 0);
    for answer in room.run(stream) {
        if matches!(answer, Answer::Watched { .. }) {
            samples.push(Sample::from_bytes(&stream[at + 1..at + RECORD_LEN]).unwrap());
        }
        at += match answer {
            Answer::Reset => 1,
            _ => RECORD_LEN,
        };
    }
    samples
}

/// The watched samples of all streams, in stretches of one tag.
fn stretches() -> Vec<Vec<Sample>> {
    let folder = Path::new(env!("CARGO_MANIFEST_DIR"));
    let streams = STREAMS.map(|stream| watched(&fs::read(folder.join(stream)).unwrap()));
    let of_one_tag = streams
        .iter()
        .flat_map(|samples| samples.chunk_by(|sample, next| sample.tag == next.tag));
    of_one_tag.map(<[Sample]>::to_vec).collect()
}

impl Random {
    fn either(&mut self) -> bool {
        self.below(2) == 0
    }

    /// Any order of the items, each as likely (Fisher-Yates).
    fn shuffle<T>(&mut self, items: &mut [T]) {
        for last in (1..items.len()).rev() {
            items.swap(last, self.below(1 + last));
        }
    }

    /// Puts copies of some items in place of others, of half of them at most.
    fn repeat<T: Copy>(&mut self, items: &mut [T]) {
        for _ in 0..self.below(1 + items.len() / 2) {
            items[self.below(items.len())] = items[self.below(items.len())];
        }
    }

    fn thresholds(&mut self, settings: Settings) -> Settings {
        let presence = Presence {
            on_permille: self.below(PERMILLE) as u16,
            off_permille: self.below(PERMILLE) as u16,
            hold: Micros(self.below(HOLD) as u64),
        };
        let phase = Phase {
            on_ppm: self.below(PPM) as u32,
            off_ppm: self.below(PPM) as u32,
            hold: Micros(self.below(HOLD) as u64),
        };
        settings.presence(presence).phase(phase)
    }
}

/// The wander of amplitudes and phases: permille, parts per million.
type Wander = (u16, u32);

/// What a unit says of a watched sample.
fn said(answer: Answer) -> Option<(Wander, Verdict)> {
    match answer {
        Answer::Calibrated { .. } => None,
        Answer::Watched {
            verdict,
            permille,
            ppm,
            ..
        } => Some(((permille, ppm), verdict)),
        other => panic!("{other}"),
    }
}

fn frames(samples: &[Sample]) -> Vec<[i8; IQ_LEN]> {
    samples.iter().map(|sample| sample.iq).collect()
}

/// How much there was to compare.
#[derive(Debug, Default)]
struct Counts {
    windows: usize,
    /// Windows that the units had in different orders.
    reordered: usize,
    /// Of these, those with a frame that occurs twice, those with a wander above 0, and those with
    /// different verdicts by the same thresholds.
    repeated: usize,
    permille: usize,
    ppm: usize,
    verdicts: usize,
    /// Answers behind a window, while both units still have the same frames.
    later: usize,
    /// Answers before its end, of full windows with other frames, with different wanders.
    apart: usize,
}

/// Two units side by side, and what they are fed.
struct Pair<'a> {
    units: [Room; 2],
    w: usize,
    seed: u64,
    random: Random,
    /// Where samples are taken from: stretches of one tag.
    stretches: Vec<&'a [Sample]>,
    /// None: samples stay as in the stream. Else they get this tag, and some I/Q bytes at random: the
    /// streams have two tags of four, and few different frames in the longest stretches.
    changes: Option<u8>,
    /// Samples are calibrated between those that are watched.
    calibrates: bool,
    /// Whole samples are reordered, with their times; or else the I/Q alone.
    whole: bool,
    /// The units have the same thresholds.
    alike: bool,
}

impl<'a> Pair<'a> {
    fn new(stretches: &'a [Vec<Sample>], w: u16, seed: u64) -> Self {
        let mut random = Random(seed);
        let tag = stretches[random.below(stretches.len())][0].tag;
        let of_one_tag = stretches.iter().filter(|stretch| stretch[0].tag == tag);
        let alike = random.either();
        let mut settings = [Settings::new(HZ).window(w); 2];
        if !alike {
            settings = settings.map(|preset| random.thresholds(preset));
        }
        Pair {
            units: settings.map(|settings| Room::new(&settings).unwrap()),
            w: w.into(),
            seed,
            stretches: of_one_tag.map(Vec::as_slice).collect(),
            changes: random.either().then(|| 1 + random.below(TAGS) as u8),
            calibrates: random.either(),
            whole: random.either(),
            alike,
            random,
        }
    }

    /// So many samples of a stretch, from a place in it on.
    fn piece(&mut self, len: usize) -> Vec<Sample> {
        let mut long = self.stretches.clone();
        long.retain(|stretch| stretch.len() >= len);
        let stretch = long[self.random.below(long.len())];
        let from = self.random.below(1 + stretch.len() - len);
        let samples = stretch[from..from + len].iter();
        samples.map(|sample| self.changed(*sample)).collect()
    }

    fn changed(&mut self, mut sample: Sample) -> Sample {
        if let Some(tag) = self.changes {
            sample.tag = tag;
            for _ in 0..CHANGED {
                sample.iq[self.random.below(IQ_LEN)] = self.random.word() as i8;
            }
        }
        sample
    }

    /// No samples, or as many as two windows at most.
    fn past(&mut self) -> Vec<Sample> {
        if self.random.either() {
            return Vec::new();
        }
        let lens = [self.w; 2].map(|w| self.random.below(1 + w));
        lens.map(|len| self.piece(len)).concat()
    }

    /// A window in another order, but for its first frames.
    fn reordered(&mut self, window: &[Sample], first: usize) -> Vec<Sample> {
        let mut order: Vec<&Sample> = window.iter().collect();
        self.random.shuffle(&mut order[first..]);
        let places = order.into_iter().zip(window);
        let samples = places.map(|(sample, place)| match self.whole {
            true => *sample,
            false => Sample {
                iq: sample.iq,
                ..*place
            },
        });
        samples.collect()
    }

    /// What a unit says of each of these samples.
    fn watch(&mut self, unit: usize, samples: &[Sample]) -> (Vec<Wander>, Vec<Verdict>) {
        let mut records = Vec::new();
        for sample in samples {
            if self.calibrates && self.random.below(CALIBRATED) == 0 {
                let any = samples[self.random.below(samples.len())];
                Record::calibrate(&any.to_bytes()).write_to(&mut records);
            }
            Record::watch(&sample.to_bytes()).write_to(&mut records);
        }
        let answers = self.units[unit].run(&records).into_iter();
        answers.filter_map(said).unzip()
    }

    /// Both units get a window, in two orders with the same first frames, and then as many samples
    /// more: with each of these the same frame leaves both, so they still have the same frames.
    fn compare(&mut self, counts: &mut Counts) {
        let first = match self.random.either() {
            true => 0,
            false => self.random.below(self.w),
        };
        let mut window = self.piece(self.w);
        self.random.repeat(&mut window);
        let other = self.reordered(&window, first);
        let more = self.piece(first);
        let (wanders, verdicts) = self.watch(0, &[&window[..], &more].concat());
        let (others, other_verdicts) = self.watch(1, &[&other[..], &more].concat());

        let end = self.w - 1;
        let case = format!("W {}, seed {}", self.w, self.seed);
        assert_eq!(wanders[end..], others[end..], "{case}");
        counts.windows += 1;
        counts.later += more.len();
        let full = |k: &usize| ![verdicts[*k], other_verdicts[*k]].contains(&Verdict::Warming);
        let before = (0..end).filter(full);
        counts.apart += before.filter(|k| wanders[*k] != others[*k]).count();
        if frames(&window) != frames(&other) {
            counts.reordered(&window, wanders[end]);
            let differ = self.alike && verdicts[end] != other_verdicts[end];
            counts.verdicts += usize::from(differ);
        }
    }
}

impl Counts {
    fn reordered(&mut self, window: &[Sample], (permille, ppm): Wander) {
        let distinct: HashSet<_> = frames(window).into_iter().collect();
        self.reordered += 1;
        self.repeated += usize::from(distinct.len() < window.len());
        self.permille += usize::from(permille > 0);
        self.ppm += usize::from(ppm > 0);
    }
}

#[test]
fn wander_is_the_same_for_every_order() {
    let stretches = stretches();
    let mut counts = Counts::default();
    let cases = (1..=SEEDS).flat_map(|seed| WINDOWS.map(|w| (w, seed)));
    for (w, seed) in cases {
        let mut pair = Pair::new(&stretches, w, seed);
        let pasts = [pair.past(), pair.past()];
        pair.watch(0, &pasts[0]);
        pair.watch(1, &pasts[1]);
        (0..ROUNDS).for_each(|_| pair.compare(&mut counts));
    }
    let samples: usize = stretches.iter().map(Vec::len).sum();
    println!(
        "{samples} samples in {} stretches, {counts:?}",
        stretches.len()
    );
    assert!(counts.reordered > counts.windows / 2);
    assert!(counts.repeated > counts.reordered / 2);
    assert!(counts.permille.min(counts.ppm) > counts.reordered / 2);
    assert!(counts.later.min(counts.apart) > counts.windows);
    assert!(counts.verdicts > DIFFERENT);
}

/// Imaginary parts 0, and one real part in each half of the entries.
fn halves(first: i8, last: i8) -> [i8; IQ_LEN] {
    std::array::from_fn(|place| match (place % 2, place < IQ_LEN / 2) {
        (0, _) => 0,
        (_, true) => first,
        (_, false) => last,
    })
}

/// The lines of frames in this order.
fn lines(frames: [[i8; IQ_LEN]; 3]) -> [String; 3] {
    let mut room = Room::new(&Settings::new(HZ).window(2)).unwrap();
    let mut sample = Sample {
        tag: 4,
        ..Sample::default()
    };
    frames.map(|iq| {
        sample.iq = iq;
        let line = room.watch(&sample).to_string();
        sample.at += STEP;
        line
    })
}

/// The last windows of both orders have the same frames and so the same wander, below `on` and above
/// `off`. The verdict is what the window before made it.
#[test]
fn the_verdict_remembers() {
    let (a, b, c) = (halves(50, 50), halves(51, 49), halves(54, 46));
    let due = [
        "watch warming 0 0 0 - - - 0",
        "watch absent 0 9 0 - - - 0",
        "watch absent 0 29 0 - - - 0",
    ];
    assert_eq!(lines([a, b, c]), due);
    let due = [
        "watch warming 0 0 0 - - - 0",
        "watch present 39 39 0 - - - 0",
        "watch present 29 29 0 - - - 0",
    ];
    assert_eq!(lines([a, c, b]), due);
}

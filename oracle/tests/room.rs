//! The plain room: document 01's example, its counts and refusals, and the room as it is written
//! there, which feeds new detectors all samples since the boundary for each answer.

use oracle::calls::{Host, Reply};
use oracle::layout::{ANSWER_LEN, SETTINGS_LEN, memory_len, settings_to_bytes};
use oracle::lines::lines;
use oracle::random::Random;
use oracle::room::{Answer, CALIBRATE, PlainRoom, RECORD_LEN, RESET, Return, WATCH};
use oracle::settings::Settings;
use oracle::streams::stream;

/// A record with a sample of this tag, its other fields 0.
fn record(kind: u8, tag: u8) -> Vec<u8> {
    let mut record = vec![0; RECORD_LEN];
    (record[0], record[1], record[2], record[13]) = (kind, 1, tag, 128);
    record
}

fn room() -> PlainRoom {
    PlainRoom::new(Settings::roomlines())
}

#[test]
fn the_example() {
    let stream = [vec![RESET], record(WATCH, 4), vec![7]].concat();
    let expected = "reset\nwatch warming 0 0 0 - - - 0\nrefused 9 at 143\n";
    assert_eq!(lines(&stream), expected);
}

/// A watched sample of tag 4 with real parts alone: one in the first half, one in the second.
fn halves(time: u64, first: u8, second: u8) -> Vec<u8> {
    let mut record = record(WATCH, 4);
    record[5..13].copy_from_slice(&time.to_le_bytes());
    for (place, entry) in record[14..].chunks_exact_mut(2).enumerate() {
        entry[1] = if place < 32 { first } else { second };
    }
    record
}

/// The worked pair of docs/SPEC.md: two orders of one window, the same wander, another verdict.
#[test]
fn two_orders() {
    let last = |second: [u8; 2], third: [u8; 2]| {
        let stream = [[50, 50], second, third]
            .into_iter()
            .zip([0, 20_000, 40_000]);
        let stream = stream.flat_map(|([a, b], time)| halves(time, a, b));
        let settings = Settings {
            w: 2,
            ..Settings::roomlines()
        };
        let (answers, _) = PlainRoom::new(settings).run(&stream.collect::<Vec<_>>(), usize::MAX);
        [1, 2].map(|k| answers[k].to_string())
    };
    assert_eq!(
        last([51, 49], [54, 46]),
        ["watch absent 0 9 0 - - - 0", "watch absent 0 29 0 - - - 0"]
    );
    assert_eq!(
        last([54, 46], [51, 49]),
        [
            "watch present 39 39 0 - - - 0",
            "watch present 29 29 0 - - - 0"
        ]
    );
}

#[test]
fn beginnings() {
    let settings = Settings::roomlines();
    let (bytes, memory) = (settings_to_bytes(&settings), memory_len(&settings));
    let begin = |bytes: &[u8], memory| PlainRoom::begin(bytes, memory).err();
    assert_eq!(begin(&bytes, memory), None);
    assert_eq!(begin(&bytes, memory + 1), Some(2));
    assert_eq!(begin(&bytes[1..], memory), Some(1));
    assert_eq!(begin(&[0; SETTINGS_LEN], 0), Some(1));
    for (w, in_range) in [(0, false), (1, true), (8192, true), (8193, false)] {
        assert_eq!(Settings { w, ..settings }.in_range(), in_range);
    }
}

#[test]
fn counts() {
    let records = [
        record(WATCH, 1),
        vec![RESET],
        record(WATCH, 9),
        vec![7, RESET],
    ]
    .concat();
    for answers in 0..=4 {
        for rest in [0, ANSWER_LEN - 1] {
            let (given, end) = room().run(&records, answers * ANSWER_LEN + rest);
            let used = [
                0,
                RECORD_LEN,
                RECORD_LEN + 1,
                2 * RECORD_LEN + 1,
                2 * RECORD_LEN + 1,
            ];
            let (refusal, need) = if answers < 4 { (6, ANSWER_LEN) } else { (0, 0) };
            let expected = Return {
                refusal,
                need,
                answers,
                used: used[answers],
            };
            assert_eq!((given.len(), end), (answers, expected));
        }
    }
    let (answers, end) = room().run(&[], 0);
    assert_eq!((answers, end.refusal, end.used), (vec![], 0, 0));
}

#[test]
fn refusals_of_records() {
    let refusal = |change: fn(&mut Vec<u8>)| {
        let mut records = record(WATCH, 1);
        change(&mut records);
        room().run(&records, usize::MAX).0[0]
    };
    let refused = |number| Answer::Refused { number, at: 0 };
    assert_eq!(refusal(|r| r[1] = 2), refused(3));
    assert_eq!(refusal(|r| r[13] = 127), refused(3));
    assert_eq!(refusal(|r| r[2] = 5), refused(4));
    assert_eq!(refusal(|r| (r[1], r[2]) = (0, 0)), refused(3));
    assert_eq!(refusal(|r| r[0] = 4), refused(9));
    assert_eq!(refusal(|r| (r[0], r[1]) = (0, 0)), refused(9));
    assert_eq!(refusal(|r| r.truncate(RECORD_LEN - 1)), refused(9));
}

#[test]
fn calibration_is_full() {
    let mut room = room();
    let (answers, _) = room.run(&record(CALIBRATE, 2).repeat(65_536), usize::MAX);
    assert_eq!(
        answers[65_534],
        Answer::Calibrate {
            frames: 65_535,
            mean: 0
        }
    );
    let at = 65_535 * RECORD_LEN;
    assert_eq!(answers[65_535], Answer::Refused { number: 8, at });
    let records = [record(WATCH, 2), record(CALIBRATE, 3)].concat();
    let (answers, _) = room.run(&records, usize::MAX);
    assert_eq!(answers[1], Answer::Calibrate { frames: 1, mean: 0 });
}

/// The accepted records since the last boundary (document 01's L), each whole.
#[derive(Default)]
struct WrittenRoom(Vec<u8>);

impl WrittenRoom {
    fn accept(&mut self, record: &[u8]) {
        if record[0] == RESET || self.0.get(2).is_some_and(|tag| *tag != record[2]) {
            self.0.clear();
        }
        if record[0] != RESET {
            self.0.extend(record);
        }
    }

    /// What new detectors give for the last, fed all in order.
    fn answer(&self, settings: Settings) -> Answer {
        let (mut answers, _) = PlainRoom::new(settings).run(&self.0, usize::MAX);
        answers.pop().unwrap_or(Answer::Reset)
    }
}

#[test]
fn as_it_is_written() {
    let mut random = Random::new(5);
    for _ in 0..8 {
        let settings = Settings {
            w: 5,
            n: 4,
            ..Settings::random(&mut random)
        };
        let stream = stream(&mut random, 300);
        let (answers, end) = PlainRoom::new(settings).run(&stream, usize::MAX);
        let mut records = &stream[..end.used];
        let mut written = WrittenRoom::default();
        for answer in &answers {
            let length = records
                .first()
                .map_or(0, |kind| if *kind == RESET { 1 } else { RECORD_LEN });
            let (record, rest) = records.split_at(length);
            records = rest;
            if matches!(answer, Answer::Refused { .. }) {
                continue;
            }
            written.accept(record);
            if random.one_in(20) {
                assert_eq!(*answer, written.answer(settings));
            }
        }
        assert!(records.is_empty());
    }
}

/// The Rust itself overflows nowhere in range (this profile checks).
#[test]
fn any_settings_in_range() {
    let deep = std::thread::Builder::new().stack_size(1 << 24);
    let runs = deep.spawn(|| {
        let mut random = Random::new(6);
        for _ in 0..20 {
            let settings = Settings::random(&mut random);
            assert!(settings.in_range());
            assert!(!Settings::out_of_range(&mut random).in_range());
            let stream = stream(&mut random, 300);
            PlainRoom::new(settings).run(&stream, usize::MAX);
        }
    });
    runs.unwrap().join().unwrap();
}

/// Made-up calls meet every reply there is.
#[test]
fn calls() {
    let mut random = Random::new(7);
    let mut begun = [0; 3];
    let mut ended = [0; 10];
    for _ in 0..20 {
        let (mut host, first) = Host::new(&mut random);
        assert_eq!(host.reply(&first), Reply::Begin(0));
        for _ in 0..40 {
            let call = host.call(&mut random);
            match host.reply(&call) {
                Reply::Begin(refusal) => begun[usize::from(refusal)] += 1,
                Reply::Run(_, end) if end.refusal != 0 => ended[usize::from(end.refusal)] += 1,
                Reply::Run(answers, _) => match answers.last() {
                    Some(Answer::Refused { number, .. }) => ended[usize::from(*number)] += 1,
                    _ => ended[0] += 1,
                },
            }
        }
    }
    assert!(begun.iter().all(|count| *count > 0), "{begun:?}");
    assert!([0, 6, 9].iter().all(|end| ended[*end] > 0), "{ended:?}");
}

//! A room through the public calls.

use volkjarp::{ANSWER_LEN, Answer, Field, RECORD_LEN, Rate, Record, Refusal, Room, Sample};
use volkjarp::{Settings, Verdict};

fn sample(tag: u8, at: u64, value: i8) -> [u8; 141] {
    let mut sample = Sample {
        tag,
        at,
        ..Sample::default()
    };
    for (place, byte) in sample.iq.iter_mut().enumerate() {
        *byte = value.wrapping_add(place as i8);
    }
    sample.to_bytes()
}

fn small() -> Settings {
    Settings::new(50).window(2).blocks(4)
}

fn refused(number: Refusal, at: u64) -> Answer {
    Answer::Refused { number, at }
}

#[test]
fn the_example() {
    let mut room = Room::new(&Settings::new(50)).unwrap();
    assert_eq!(room.memory_len(), 47_562);
    let sample = Sample {
        tag: 4,
        ..Sample::default()
    };
    let watch = Record::watch(&sample.to_bytes()).to_bytes();
    let run = room.run(&[vec![3], watch, vec![7]].concat());
    let warming = Answer::Watched {
        verdict: Verdict::Warming,
        motion: 0,
        permille: 0,
        ppm: 0,
        breathing: Rate::NotDue,
        heart: Rate::NotDue,
        fall: false,
        distance: 0,
    };
    let due = vec![Answer::Reset, warming, refused(Refusal::Record, 143)];
    assert_eq!((run.answers, run.used), (due, 143));
}

#[test]
fn more_answers_than_space() {
    let mut room = Room::new(&small()).unwrap();
    let mut records = vec![3; 10_000];
    records.push(0);
    let run = room.run(&records);
    assert_eq!((run.answers.len(), run.used), (10_001, 10_000));
    assert_eq!(run.answers[9_999], Answer::Reset);
    assert_eq!(run.answers[10_000], refused(Refusal::Record, 10_000));
    assert_eq!(room.run(&[]).answers, []);
}

#[test]
fn space_of_ones_own() {
    let mut room = Room::new(&small()).unwrap();
    let mut space = [7; 2 * ANSWER_LEN - 1];
    let ran = room.run_into(&[3, 3, 3], &mut space).unwrap();
    assert_eq!((ran.answers, ran.used, ran.need), (1, 1, Some(ANSWER_LEN)));
    assert!(space[ANSWER_LEN..].iter().all(|byte| *byte == 7));
    let first = space.first_chunk().unwrap();
    assert_eq!(Answer::from_bytes(first), Some(Answer::Reset));
    let ran = room.run_into(&[], &mut []).unwrap();
    assert_eq!((ran.answers, ran.used, ran.need), (0, 0, None));
}

#[test]
fn verdicts_and_baseline() {
    let mut room = Room::new(&small()).unwrap();
    let mut records = Vec::new();
    let still = sample(1, 0, 10);
    Record::calibrate(&still).write_to(&mut records);
    for at in 0..3 {
        Record::watch(&sample(1, at * 20_000, 10)).write_to(&mut records);
    }
    Record::watch(&sample(1, 60_000, -90)).write_to(&mut records);
    let answers = room.run(&records).answers;
    assert!(matches!(answers[0], Answer::Calibrated { frames: 1, mean } if mean > 0));
    let verdicts: Vec<Verdict> = answers[1..]
        .iter()
        .map(|answer| match answer {
            Answer::Watched { verdict, .. } => *verdict,
            other => panic!("{other:?}"),
        })
        .collect();
    let (warming, absent, present) = (Verdict::Warming, Verdict::Absent, Verdict::Present);
    assert_eq!(verdicts, [warming, absent, absent, present]);
    assert!(matches!(answers[3], Answer::Watched { distance: 0, .. }));
    assert!(matches!(
        answers[4],
        Answer::Watched {
            distance: 1..,
            motion: 1..,
            ..
        }
    ));
}

#[test]
fn refused_records_pass_on() {
    let mut room = Room::new(&small()).unwrap();
    let (mut form, mut tag) = (sample(1, 0, 1), sample(1, 0, 1));
    (form[0], tag[1]) = (2, 9);
    let mut records = Record::watch(&form).to_bytes();
    Record::watch(&tag).write_to(&mut records);
    Record::reset().write_to(&mut records);
    let run = room.run(&records);
    let at = RECORD_LEN as u64;
    let due = [
        refused(Refusal::Form, 0),
        refused(Refusal::Tag, at),
        Answer::Reset,
    ];
    assert_eq!(run.answers, due);
    let cut = room.run(&records[..RECORD_LEN - 1]);
    assert_eq!(
        (&cut.answers[..], cut.used),
        (&[refused(Refusal::Record, 0)][..], 0)
    );
}

/// Runs that are split give what one run gives.
#[test]
fn split_runs() {
    let mut records = Vec::new();
    for at in 0..60_u64 {
        let tag = if at < 40 { 2 } else { 3 };
        Record::watch(&sample(tag, at * 20_000, (at % 7) as i8)).write_to(&mut records);
    }
    let settings = Settings::new(50).window(5).blocks(4);
    let whole = Room::new(&settings).unwrap().run(&records);
    let mut room = Room::new(&settings).unwrap();
    let parts = records.chunks(7 * RECORD_LEN);
    let split: Vec<Answer> = parts.flat_map(|part| room.run(part)).collect();
    assert_eq!(whole.answers, split);
}

#[test]
fn beginning_again() {
    let mut room = Room::new(&small()).unwrap();
    let watch = Record::watch(&sample(1, 0, 3)).to_bytes();
    let first = room.run(&watch.repeat(3));
    let error = room.begin(&small().blocks(3)).unwrap_err();
    assert_eq!((error.field, error.value), (Field::Blocks, 3));
    room.begin(&small()).unwrap();
    assert_eq!(room.run(&watch.repeat(3)), first);
    room.begin(&Settings::new(50)).unwrap();
    assert_eq!(room.memory_len(), 47_562);
    let warming = room.run(&watch.repeat(49)).answers;
    assert!(warming.iter().all(|answer| matches!(
        answer,
        Answer::Watched {
            verdict: Verdict::Warming,
            ..
        }
    )));
}

//! A room that is saved and goes on, and what it tells of itself.

use volkjarp::{Answer, Record, Refusal, Room, Sample, Settings};

fn settings() -> Settings {
    Settings::new(50).window(5).blocks(4)
}

fn sample(tag: u8, k: u64) -> Sample {
    let iq = std::array::from_fn(|j| (j as u64 * 7 + k * k % 11) as i8);
    let at = k * 20_000;
    Sample {
        tag,
        at,
        iq,
        ..Sample::default()
    }
}

/// Saved at each point of a stream, over a swap and a reset, it goes on alike.
#[test]
fn a_saved_room_goes_on_alike() {
    let mut records = Vec::new();
    for k in 0..60 {
        let bytes = sample(if k < 30 { 2 } else { 3 }, k).to_bytes();
        let record = match k % 10 {
            0..3 => Record::calibrate(&bytes),
            9 if k == 49 => Record::reset(),
            _ => Record::watch(&bytes),
        };
        records.push(record.to_bytes());
    }
    let mut room = Room::new(&settings()).unwrap();
    for k in 0..records.len() {
        let mut again = Room::from_memory(room.memory()).unwrap();
        assert!(again.has_settings(&settings()));
        let rest = records[k..].concat();
        assert_eq!(again.run(&rest), room.clone().run(&rest), "from record {k}");
        room.run(&records[k]);
    }
}

#[test]
fn damaged_memory_is_refused() {
    let mut room = Room::new(&settings()).unwrap();
    for k in 0..9 {
        room.watch(&sample(2, k));
    }
    let memory = room.memory();
    let refused = |memory: &[u8]| Room::from_memory(memory).unwrap_err();
    assert_eq!(refused(&[]), Refusal::Memory);
    assert_eq!(refused(&memory[1..]), Refusal::Memory);
    assert_eq!(refused(&memory[..memory.len() - 1]), Refusal::Memory);
    for (place, what) in [(0, "W"), (118, "tag"), (202, "a sum"), (1994, "a row")] {
        let mut torn = memory.to_vec();
        torn[place] ^= 64;
        assert_eq!(refused(&torn), Refusal::Memory, "{what}");
    }
}

#[test]
fn one_record_at_a_time() {
    let mut room = Room::new(&settings()).unwrap();
    let mut whole = room.clone();
    assert_eq!((room.tag(), room.calibrated_frames()), (None, 0));
    let mut records = Vec::new();
    let mut answers = Vec::new();
    for k in 0..8 {
        let (tag, k_bytes) = (1 + (k / 4) as u8, sample(1 + (k / 4) as u8, k).to_bytes());
        Record::calibrate(&k_bytes).write_to(&mut records);
        Record::watch(&k_bytes).write_to(&mut records);
        answers.push(room.calibrate(&sample(tag, k)));
        let frames = room.calibrated_frames();
        assert!(
            matches!(answers.last(), Some(Answer::Calibrated { frames: f, .. }) if *f == frames)
        );
        assert_eq!((room.tag(), frames), (Some(tag), 1 + k as u32 % 4));
        answers.push(room.watch(&sample(tag, k)));
    }
    assert_eq!(whole.run(&records).answers, answers);
    assert_eq!(room.memory(), whole.memory());
    room.reset();
    assert_eq!((room.tag(), room.calibrated_frames()), (None, 0));
    let unknown = room.watch(&sample(9, 0));
    let due = Answer::Refused {
        number: Refusal::Tag,
        at: 0,
    };
    assert_eq!(unknown, due);
}

/// A stream in pieces of any size gives what it gives whole.
#[test]
fn pieces() {
    let mut records = vec![3];
    for k in 0..20 {
        Record::watch(&sample(2, k).to_bytes()).write_to(&mut records);
    }
    records.extend([3, 7, 3]);
    let whole = Room::new(&settings()).unwrap().run(&records);
    for size in [1, 2, 100, 141, 142, 143, 500, 5000] {
        let mut room = Room::new(&settings()).unwrap();
        let (mut stream, mut answers) = (Vec::new(), Vec::new());
        for piece in records.chunks(size) {
            stream.extend_from_slice(piece);
            answers.extend(room.feed(&mut stream));
            if stream.first() == Some(&7) {
                break;
            }
        }
        let last = answers.pop().unwrap();
        assert!(matches!(
            last,
            Answer::Refused {
                number: Refusal::Record,
                ..
            }
        ));
        assert_eq!(answers, whole.answers[..22], "pieces of {size}");
    }
}

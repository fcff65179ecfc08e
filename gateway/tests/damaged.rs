//! Damaged input through the safe calls: made up at random, the same each time.

mod common;

use common::Random;
use volkjarp::{
    ANSWER_LEN, Answer, RECORD_LEN, Record, Refusal, Room, Sample, Settings, whole_len,
};

impl Random {
    fn sample(&mut self) -> Sample {
        let mut word = || self.word() >> 40;
        Sample {
            tag: (word() % 6) as u8,
            rssi: word() as i8,
            channel: word() as u8,
            at: word(),
            iq: std::array::from_fn(|_| word() as i8),
        }
    }

    /// Some records, some of them damaged or cut short.
    fn records(&mut self) -> Vec<u8> {
        let mut records = Vec::new();
        for _ in 0..self.below(12) {
            let bytes = self.sample().to_bytes();
            match self.below(8) {
                0 => Record::reset().write_to(&mut records),
                1 | 2 => Record::calibrate(&bytes).write_to(&mut records),
                _ => Record::watch(&bytes).write_to(&mut records),
            }
        }
        if !records.is_empty() && self.below(2) == 0 {
            let place = self.below(records.len());
            records[place] = self.word() as u8;
        }
        if self.below(4) == 0 {
            records.truncate(self.below(1 + records.len()));
        }
        records
    }
}

fn room() -> Room {
    Room::new(&Settings::new(50).window(3).blocks(4)).unwrap()
}

/// Every run is answered to its end or its first 9, and the memory stays one that is taken.
#[test]
fn runs() {
    let mut random = Random(1);
    let mut room = room();
    for _ in 0..3000 {
        let records = random.records();
        let before = room.memory().to_vec();
        let run = room.run(&records);
        let refused = |answer: &Answer| matches!(answer, Answer::Refused { .. });
        let last = run.answers.last();
        let ended = matches!(last, Some(Answer::Refused { number: Refusal::Record, at }) if *at == run.used as u64);
        assert_eq!(run.used < records.len(), ended);
        if run.answers.iter().all(refused) {
            assert_eq!(room.memory(), before);
        }
        assert!(Room::from_memory(room.memory()).is_ok());
    }
}

/// Space of any size: answers are written to its front and nothing past them.
#[test]
fn spaces() {
    let mut random = Random(2);
    let mut room = room();
    for _ in 0..3000 {
        let records = random.records();
        let due = room.clone().run(&records);
        let mut space = vec![0xAA; random.below(10 * ANSWER_LEN)];
        let ran = room.run_into(&records, &mut space).unwrap();
        let (written, rest) = space.split_at(ran.answers * ANSWER_LEN);
        assert!(rest.iter().all(|byte| *byte == 0xAA));
        let answers = written.chunks_exact(ANSWER_LEN).map(|bytes| {
            let bytes = bytes.try_into().unwrap();
            Answer::from_bytes(bytes).unwrap()
        });
        assert!(answers.eq(due.answers[..ran.answers].iter().copied()));
        match ran.need {
            None => assert_eq!((ran.answers, ran.used), (due.answers.len(), due.used)),
            Some(need) => assert!(need == ANSWER_LEN && rest.len() < need),
        }
    }
}

/// Memory with bytes changed is refused, or it is taken and every run on it is answered.
#[test]
fn memories() {
    let mut random = Random(3);
    let mut taken = 0;
    for _ in 0..3000 {
        let mut room = room();
        room.run(&random.records());
        let mut memory = room.memory().to_vec();
        // the header three times in four
        let end = if random.below(4) > 0 {
            202
        } else {
            memory.len()
        };
        for _ in 0..=random.below(3) {
            let place = random.below(end);
            memory[place] = random.word() as u8;
        }
        if random.below(20) == 0 {
            memory.truncate(random.below(memory.len()));
        }
        match Room::from_memory(memory.clone()) {
            Err(refusal) => assert_eq!(refusal, Refusal::Memory),
            Ok(mut room) => {
                assert_eq!(room.memory(), memory);
                room.run(&random.records());
                taken += 1;
            }
        }
    }
    assert!((500..2500).contains(&taken), "{taken} were taken");
}

/// Bytes are a sample just if they are one's bytes.
#[test]
fn samples() {
    let mut random = Random(4);
    for _ in 0..3000 {
        let sample = random.sample();
        let mut bytes = sample.to_bytes().to_vec();
        assert_eq!(Sample::from_bytes(&bytes), Ok(sample));
        bytes[random.below(13)] = random.word() as u8;
        if random.below(2) == 0 {
            bytes.truncate(random.below(1 + bytes.len()));
        }
        let ends = bytes
            .get(12)
            .is_some_and(|n| bytes.len() == 13 + usize::from(*n));
        match Sample::from_bytes(&bytes) {
            Ok(sample) => assert_eq!(sample.to_bytes()[..], bytes),
            Err(Refusal::Iq) => assert!(bytes[0] == 1 && ends && bytes[12] < 128),
            Err(refusal) => {
                assert_eq!(refusal, Refusal::Form);
                assert!(!ends || bytes[0] != 1 || bytes[12] > 128);
            }
        }
    }
}

/// What is whole is used, but for a byte of an unknown kind; a run of less is never cut short.
#[test]
fn fronts() {
    let mut random = Random(5);
    let mut room = room();
    for _ in 0..3000 {
        let records = random.records();
        let whole = whole_len(&records);
        let run = room.run(&records[..whole]);
        let known = matches!(records.get(run.used), Some(1..=3) | None);
        assert_eq!(run.used, if known { whole } else { whole - 1 });
        assert!(records.len() - whole < RECORD_LEN || !known);
    }
}

//! A case is a record. Its line has three parts:
//!
//! - decoding it: `sample LAYOUT RSSI CHANNEL AT N`, or `refused 3`;
//! - encoding those numbers (zeros where refused), with the bytes behind the 13 of a header as I/Q,
//!   into SPACE bytes of value FILL: `written BYTES CHECK`, or `refused 3`; CHECK is the sum over
//!   the whole space of byte · (position + 1), positions from 0;
//! - the same into a space one byte too short: `short NEED`, or `refused 3`.

use oracle::radar::csi_stream::{HEADER_LEN, MAX_IQ, Sample, VERSION};
use oracle::random::Random;
use oracle::{Error, Micros, samples};

use super::Cases;

const SPACE: usize = 150;
const FILL: u8 = 0xa5;

pub fn cases() -> Cases {
    let random = &mut Random::new(1);
    let mut cases = Cases::default();
    let mut add = |record: Vec<u8>| cases.add(&record, &answer(&record));
    bench().chain(single_bytes()).for_each(&mut add);
    for n in 0..=MAX_IQ {
        let record = samples::legal(random, n);
        add(record.clone());
        add(samples::damaged(random, record));
    }
    cases
}

/// The bench cases of document 01, and other headers refused for one reason each.
fn bench() -> impl Iterator<Item = Vec<u8>> {
    let shapes = [
        (VERSION, 12, 0),
        (VERSION, 13, 0),
        (VERSION, 142, 129),
        (VERSION, 141, 128),
        (VERSION, 141, 129),
        (VERSION, 13, 128),
        (VERSION, 14, 0),
        (VERSION, 13, 1),
        (VERSION, 268, 255),
        (0, 13, 0),
        (2, 141, 128),
    ];
    let empty = std::iter::once(Vec::new());
    empty.chain(shapes.into_iter().map(|(version, length, n)| {
        let mut record = vec![0; length];
        record[0] = version;
        if let Some(count) = record.get_mut(12) {
            *count = n;
        }
        record
    }))
}

/// Headers alone, in which one byte of one field is not 0.
fn single_bytes() -> impl Iterator<Item = Vec<u8>> {
    let mut empty = vec![0; HEADER_LEN];
    empty[0] = VERSION;
    let fields = (1..12).flat_map(|field| [1, 127, 128, 255].map(|value| (field, value)));
    fields.map(move |(field, value)| {
        let mut record = empty.clone();
        record[field] = value;
        record
    })
}

fn answer(record: &[u8]) -> String {
    let iq: Vec<i8> = record.iter().skip(HEADER_LEN).map(|&b| b as i8).collect();
    let (decoded, fields) = match Sample::decode(record) {
        Ok(s) => (
            format!(
                "sample {} {} {} {} {}",
                s.layout, s.rssi, s.channel, s.at.0, s.len
            ),
            s,
        ),
        Err(_) => (
            "refused 3".into(),
            Sample::from_iq(Micros(0), 0, 0, 0, &[]).unwrap(),
        ),
    };
    let Sample {
        at,
        rssi,
        channel,
        layout,
        ..
    } = fields;
    match Sample::from_iq(at, rssi, channel, layout, &iq) {
        Ok(sample) => {
            let needed = sample.encoded_len();
            format!(
                "{decoded} {} {}",
                encoded(&sample, SPACE),
                encoded(&sample, needed - 1)
            )
        }
        Err(_) => format!("{decoded} refused 3 refused 3"),
    }
}

fn encoded(sample: &Sample, size: usize) -> String {
    let mut space = vec![FILL; size];
    match sample.encode(&mut space) {
        Ok(written) => {
            let check: usize = space
                .iter()
                .enumerate()
                .map(|(i, &b)| usize::from(b) * (i + 1))
                .sum();
            format!("written {written} {check}")
        }
        Err(Error::BufferTooSmall { needed }) => format!("short {needed}"),
        Err(other) => unreachable!("{other:?}"),
    }
}

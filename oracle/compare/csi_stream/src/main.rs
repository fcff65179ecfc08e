//! Decoding and encoding against the Rust: `compare_csi_stream [seed] [random inputs]`.

mod features;

use std::process::ExitCode;

use oracle::differ::{self, Differ};
use oracle::radar::csi_stream::{HEADER_LEN, MAX_ENCODED_LEN, MAX_IQ, Sample, VERSION};
use oracle::random::Random;
use oracle::timer::ratio_over;
use oracle::{Error, Micros, argument, refusals, samples};

#[repr(C)]
struct Written {
    refusal: u64,
    bytes: u64,
}

unsafe extern "C" {
    fn csi_decode(
        bytes: *const u8,
        bytes_len: usize,
        at: &mut u64,
        rssi: &mut i8,
        channel: &mut u8,
        layout: &mut u8,
        len: &mut u8,
    ) -> u64;
    fn csi_encode(
        at: u64,
        rssi: i8,
        channel: u8,
        layout: u8,
        iq: *const u8,
        iq_len: usize,
        out: *mut u8,
        out_len: usize,
    ) -> Written;
}

/// Document 01's numbers for the two refusals met here.
const FORMAT: u64 = refusals::FORMAT as u64;
const SPACE: u64 = refusals::SPACE as u64;

/// A sample's numbers, I/Q aside.
#[derive(Debug, Clone, Copy, PartialEq)]
struct Fields {
    at: u64,
    rssi: i8,
    channel: u8,
    layout: u8,
    len: u8,
}

/// What the numbers hold before a call, so that a refusal that writes shows.
const BEFORE: Fields = Fields {
    at: 0x0123_4567_89ab_cdef,
    rssi: -77,
    channel: 99,
    layout: 250,
    len: 251,
};

fn decode_rust(record: &[u8]) -> (u64, Fields) {
    match Sample::decode(record) {
        Err(Error::InvalidFormat) => (FORMAT, BEFORE),
        Err(other) => unreachable!("{other:?}"),
        Ok(Sample {
            at,
            rssi,
            channel,
            layout,
            len,
            ..
        }) => (
            0,
            Fields {
                at: at.0,
                rssi,
                channel,
                layout,
                len,
            },
        ),
    }
}

fn decode_ours(record: &[u8]) -> (u64, Fields) {
    let mut f = BEFORE;
    let Fields {
        at,
        rssi,
        channel,
        layout,
        len,
    } = &mut f;
    let refusal = unsafe {
        csi_decode(
            record.as_ptr(),
            record.len(),
            at,
            rssi,
            channel,
            layout,
            len,
        )
    };
    (refusal, f)
}

/// The refusal, and the bytes written or needed.
fn encode_rust(f: &Fields, iq: &[u8], space: &mut [u8]) -> (u64, u64) {
    let iq: Vec<i8> = iq.iter().map(|&b| b as i8).collect();
    let Ok(sample) = Sample::from_iq(Micros(f.at), f.rssi, f.channel, f.layout, &iq) else {
        // The Rust refuses such a sample before encoding; document 01 gives encoding the number.
        return (FORMAT, 0);
    };
    match sample.encode(space) {
        Ok(written) => (0, written as u64),
        Err(Error::BufferTooSmall { needed }) => (SPACE, needed as u64),
        Err(other) => unreachable!("{other:?}"),
    }
}

fn encode_ours(f: &Fields, iq: &[u8], space: &mut [u8]) -> (u64, u64) {
    let (out, out_len) = (space.as_mut_ptr(), space.len());
    let Written { refusal, bytes } = unsafe {
        csi_encode(
            f.at,
            f.rssi,
            f.channel,
            f.layout,
            iq.as_ptr(),
            iq.len(),
            out,
            out_len,
        )
    };
    (refusal, bytes)
}

fn compare_decode(differ: &mut Differ, record: &[u8]) {
    differ.compare(&record, &decode_rust(record), &decode_ours(record));
}

/// Compares the whole space too, in which a refusal and the bytes past a sample leave what was.
fn compare_encode(differ: &mut Differ, f: &Fields, iq: &[u8], space: &[u8]) {
    let (mut rust, mut ours) = (space.to_vec(), space.to_vec());
    let rust = (encode_rust(f, iq, &mut rust), rust);
    let ours = (encode_ours(f, iq, &mut ours), ours);
    differ.compare(&(f, iq, space), &rust, &ours);
}

fn random_fields(random: &mut Random) -> Fields {
    Fields {
        at: random.any_size(),
        rssi: random.byte() as i8,
        channel: random.byte(),
        layout: random.byte(),
        len: 0,
    }
}

/// Every length to 300 with every version and I/Q count that could be mistaken for a legal one.
fn every_length(differ: &mut Differ, random: &mut Random) {
    for length in 0..=300usize {
        let fitting = length.saturating_sub(HEADER_LEN) as u8;
        let counts = [
            fitting,
            fitting.wrapping_add(1),
            fitting.wrapping_sub(1),
            0,
            127,
            128,
            129,
            255,
        ];
        for version in [VERSION, 0, 2, 255] {
            for count in counts {
                let mut record = random.bytes(length);
                record.iter_mut().take(1).for_each(|b| *b = version);
                record.iter_mut().skip(12).take(1).for_each(|b| *b = count);
                compare_decode(differ, &record);
            }
        }
        compare_decode(differ, &vec![0; length]);
        compare_decode(differ, &vec![255; length]);
    }
}

/// Every I/Q count to 140 into every space around what it needs.
fn every_space(differ: &mut Differ, random: &mut Random) {
    for n in 0..=140usize {
        let iq = random.bytes(n);
        for size in (0..=HEADER_LEN + 1).chain(n + HEADER_LEN - 3..=n + HEADER_LEN + 9) {
            let space = random.bytes(size);
            compare_encode(differ, &random_fields(random), &iq, &space);
        }
    }
}

/// A random record, legal, damaged or of random bytes; then its I/Q encoded again.
fn one_random(differ: &mut Differ, random: &mut Random) {
    let n = random.below(MAX_IQ as u64 + 1) as usize;
    let record = match random.below(4) {
        0 => {
            let length = random.below(301) as usize;
            random.bytes(length)
        }
        1 | 2 => {
            let record = samples::legal(random, n);
            samples::damaged(random, record)
        }
        _ => samples::legal(random, n),
    };
    compare_decode(differ, &record);
    if let (0, f) = decode_ours(&record) {
        let mut back = vec![random.byte(); record.len()];
        encode_ours(&f, &record[HEADER_LEN..], &mut back);
        differ.compare(&record, &record, &back);
    }
}

/// Prints the times of decoding and of encoding as ratios to the Rust's.
fn measure(random: &mut Random) {
    let record = |_| samples::legal(random, MAX_IQ);
    let records: Vec<Vec<u8>> = (0..10_000).map(record).collect();
    let decode = ratio_over(&records, |r| Sample::decode(r), |r| decode_ours(r));
    println!("decode: {decode}");
    let decoded = |r: &Vec<u8>| {
        (
            Sample::decode(r).unwrap(),
            decode_rust(r).1,
            r[HEADER_LEN..].to_vec(),
        )
    };
    let samples: Vec<(Sample, Fields, Vec<u8>)> = records.iter().map(decoded).collect();
    let (mut rust, mut ours) = ([0; MAX_ENCODED_LEN], [0; MAX_ENCODED_LEN]);
    let encode = ratio_over(
        &samples,
        |(sample, _, _)| sample.encode(&mut rust),
        |(_, fields, iq)| encode_ours(fields, iq, &mut ours),
    );
    println!("encode: {encode}");
}

fn main() -> ExitCode {
    let count = argument(2, 1_000_000);
    differ::compare("csi_stream", |differ, random| {
        every_length(differ, random);
        every_space(differ, random);
        for _ in 0..count {
            one_random(differ, random);
        }
        features::compare(differ, random, count / 4);
        measure(random);
    })
}

//! Sample records, legal and damaged.

use crate::radar::csi_stream::{HEADER_LEN, MAX_IQ, VERSION};
use crate::random::Random;

/// Where the header keeps the number of I/Q bytes.
const IQ_COUNT: usize = 12;

/// A legal record of `n` I/Q bytes, its other fields random.
pub fn legal(random: &mut Random, n: usize) -> Vec<u8> {
    assert!(n <= MAX_IQ);
    let mut record = random.bytes(HEADER_LEN + n);
    record[0] = VERSION;
    record[IQ_COUNT] = n as u8;
    record
}

/// `record`, not empty, with one thing done to it that may make it illegal.
pub fn damaged(random: &mut Random, mut record: Vec<u8>) -> Vec<u8> {
    let front = record.len().min(HEADER_LEN) as u64;
    match random.below(5) {
        0 => record[0] = random.byte(),
        1 => record[random.below(front) as usize] = random.byte(),
        2 => record[random.below(front) as usize] ^= 1 << random.below(8),
        3 => record.push(random.byte()),
        _ => record.truncate(random.below(record.len() as u64) as usize),
    }
    record
}

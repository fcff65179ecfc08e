//! The features of a record against the Rust's `Sample::features`.

use oracle::differ::Differ;
use oracle::measured::Measured;
use oracle::radar::csi_stream::{HEADER_LEN, MAX_IQ, Sample};
use oracle::random::Random;
use oracle::refusals::number;
use oracle::samples;

unsafe extern "C" {
    fn csi_sample_features(bytes: *const u8, bytes_len: usize) -> Measured;
}

fn compare_one(differ: &mut Differ, record: &[u8]) {
    let rust = Sample::decode(record).and_then(|sample| sample.features());
    let ours = unsafe { csi_sample_features(record.as_ptr(), record.len()) };
    differ.compare(&record, &rust.map_err(number).into(), &ours);
}

/// Every tag over every count of I/Q bytes around what a layout needs; then random and damaged records.
pub fn compare(differ: &mut Differ, random: &mut Random, records: u64) {
    for tag in 0..=255 {
        for n in [0, 1, 2, 64, 126, 127, MAX_IQ] {
            let mut record = samples::legal(random, n);
            record[1] = tag;
            compare_one(differ, &record);
            compare_one(differ, &record[..HEADER_LEN + n - 1]);
            record.push(0);
            compare_one(differ, &record);
        }
    }
    for _ in 0..records {
        let n = if random.one_in(4) {
            random.below(129) as usize
        } else {
            MAX_IQ
        };
        let mut record = samples::legal(random, n);
        if !random.one_in(8) {
            record[1] = random.between(1, 4) as u8;
        }
        if random.one_in(4) {
            record = samples::damaged(random, record);
        }
        compare_one(differ, &record);
    }
}

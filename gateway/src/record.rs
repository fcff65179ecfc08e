//! Records: what a room is fed, and the samples in them.

use crate::ffi;
use crate::refusal::Refusal;

/// The I/Q bytes of a sample of 64 entries.
pub const IQ_LEN: usize = 128;

/// The bytes of a sample before its I/Q bytes.
const HEADER_LEN: usize = 13;

/// The length of a sample's bytes: a header of 13 and 128 I/Q bytes.
pub const SAMPLE_LEN: usize = HEADER_LEN + IQ_LEN;

/// The length of a record with a sample; a reset has one byte.
pub const RECORD_LEN: usize = 1 + SAMPLE_LEN;

/// The kind bytes.
const WATCH: u8 = 1;
const CALIBRATE: u8 = 2;
const RESET: u8 = 3;

/// One record: a kind byte, and a sample where the kind has one.
#[derive(Debug, Clone, Copy, PartialEq, Eq)]
#[non_exhaustive]
pub enum Record<'a> {
    /// Judge this sample.
    Watch(&'a [u8; SAMPLE_LEN]),
    /// Take this sample into the baseline.
    Calibrate(&'a [u8; SAMPLE_LEN]),
    /// Forget all but the settings.
    Reset,
}

impl<'a> Record<'a> {
    /// Judge a sample.
    #[must_use]
    pub const fn watch(sample: &'a [u8; SAMPLE_LEN]) -> Self {
        Record::Watch(sample)
    }

    /// Take a sample into the baseline.
    #[must_use]
    pub const fn calibrate(sample: &'a [u8; SAMPLE_LEN]) -> Self {
        Record::Calibrate(sample)
    }

    /// Forget all but the settings.
    #[must_use]
    pub const fn reset() -> Self {
        Record::Reset
    }

    fn parts(self) -> (u8, &'a [u8]) {
        match self {
            Record::Watch(sample) => (WATCH, sample),
            Record::Calibrate(sample) => (CALIBRATE, sample),
            Record::Reset => (RESET, &[]),
        }
    }

    /// Puts the record's bytes to the front of `space` and gives them back.
    pub(crate) fn put(self, space: &mut [u8; RECORD_LEN]) -> &[u8] {
        let (kind, sample) = self.parts();
        let len = 1 + sample.len();
        space[0] = kind;
        space[1..len].copy_from_slice(sample);
        &space[..len]
    }

    /// Adds the record's bytes to a run.
    pub fn write_to(self, records: &mut Vec<u8>) {
        let (kind, sample) = self.parts();
        records.push(kind);
        records.extend_from_slice(sample);
    }

    /// The record's bytes.
    #[must_use]
    pub fn to_bytes(self) -> Vec<u8> {
        let mut bytes = Vec::with_capacity(RECORD_LEN);
        self.write_to(&mut bytes);
        bytes
    }
}

/// The length of a record of this kind; none if the kind is unknown.
const fn record_len(kind: u8) -> Option<usize> {
    match kind {
        WATCH | CALIBRATE => Some(RECORD_LEN),
        RESET => Some(1),
        _ => None,
    }
}

/// How many bytes from the front a room can be fed while more may come: those of the whole records,
/// and the first byte of an unknown kind behind them, which is then refused.
///
/// ```
/// use volkjarp::whole_len;
///
/// assert_eq!(whole_len(&[3, 3, 1, 1]), 2); // two resets, and the start of a sample to watch
/// assert_eq!(whole_len(&[3, 0, 1, 1]), 2); // a reset and no record
/// ```
#[must_use]
pub fn whole_len(bytes: &[u8]) -> usize {
    let mut at = 0;
    while let Some(kind) = bytes.get(at) {
        match record_len(*kind) {
            None => return at + 1,
            Some(len) if len > bytes.len() - at => return at,
            Some(len) => at += len,
        }
    }
    at
}

/// A channel sample of 64 entries, as a radio hands it over.
#[derive(Debug, Clone, Copy, PartialEq, Eq)]
pub struct Sample {
    /// The layout: 1 to 4.
    pub tag: u8,
    /// Signal strength, in dBm.
    pub rssi: i8,
    /// The channel.
    pub channel: u8,
    /// The radio's clock, in microseconds.
    pub at: u64,
    /// 64 entries, imaginary before real.
    pub iq: [i8; IQ_LEN],
}

/// Tag 1, all else zero.
impl Default for Sample {
    fn default() -> Self {
        Sample {
            tag: 1,
            rssi: 0,
            channel: 0,
            at: 0,
            iq: [0; IQ_LEN],
        }
    }
}

impl Sample {
    /// The sample that a board sent, of 64 entries, read by the proved decoder.
    ///
    /// # Errors
    ///
    /// [`Refusal::Form`] where the bytes are no sample of version 1, [`Refusal::Iq`] where it has
    /// fewer than 64 entries. Any tag is taken; a room refuses those that it does not know.
    ///
    /// # Panics
    ///
    /// If the decoder refuses by a number that is none: it is then not the one this crate was written
    /// for.
    pub fn from_bytes(bytes: &[u8]) -> Result<Sample, Refusal> {
        let header = ffi::decode(bytes).map_err(refusal)?;
        let iq: &[u8; IQ_LEN] = bytes[HEADER_LEN..].try_into().map_err(|_| Refusal::Iq)?;
        Ok(Sample {
            tag: header.layout,
            rssi: header.rssi,
            channel: header.channel,
            at: header.at,
            iq: iq.map(u8::cast_signed),
        })
    }

    /// The sample's bytes, version 1, written by the proved encoder.
    ///
    /// # Panics
    ///
    /// If the encoder refuses 128 I/Q bytes: it is then not the one this crate was written for.
    #[must_use]
    pub fn to_bytes(&self) -> [u8; SAMPLE_LEN] {
        let header = ffi::Header {
            at: self.at,
            rssi: self.rssi,
            channel: self.channel,
            layout: self.tag,
        };
        let mut bytes = [0; SAMPLE_LEN];
        let encoded = ffi::encode(&header, &self.iq.map(i8::cast_unsigned), &mut bytes);
        assert_eq!(encoded.refusal, 0, "the encoder takes 128 I/Q bytes");
        bytes
    }
}

fn refusal(number: u64) -> Refusal {
    let number = u8::try_from(number).ok();
    number
        .and_then(Refusal::from_number)
        .expect("the decoder refuses by a refusal's number")
}

#[cfg(test)]
mod tests {
    use super::*;

    #[test]
    fn bytes_of_records() {
        let mut sample = Sample {
            tag: 2,
            rssi: -3,
            channel: 11,
            at: 0x0102,
            ..Sample::default()
        };
        sample.iq[127] = -1;
        let bytes = sample.to_bytes();
        assert_eq!(bytes[..14], [1, 2, 253, 11, 2, 1, 0, 0, 0, 0, 0, 0, 128, 0]);
        assert_eq!(bytes[140], 255);
        assert_eq!(Record::watch(&bytes).to_bytes()[..3], [1, 1, 2]);
        assert_eq!(Record::calibrate(&bytes).to_bytes()[..3], [2, 1, 2]);
        assert_eq!(Record::calibrate(&bytes).to_bytes().len(), RECORD_LEN);
        assert_eq!(Record::reset().to_bytes(), [3]);
        for record in [Record::watch(&bytes), Record::reset()] {
            assert_eq!(record.put(&mut [7; RECORD_LEN]), record.to_bytes());
        }
    }

    #[test]
    fn samples_come_back() {
        let sample = Sample {
            tag: 9,
            rssi: -128,
            channel: 255,
            at: u64::MAX,
            iq: std::array::from_fn(|place| (place as u8).wrapping_mul(3).cast_signed()),
        };
        let bytes = sample.to_bytes();
        assert_eq!(Sample::from_bytes(&bytes), Ok(sample));
        assert_eq!(Sample::from_bytes(&bytes[..140]), Err(Refusal::Form));
        let mut other = bytes;
        other[0] = 2;
        assert_eq!(Sample::from_bytes(&other), Err(Refusal::Form));
        let mut short = bytes[..139].to_vec();
        short[12] = 126;
        assert_eq!(Sample::from_bytes(&short), Err(Refusal::Iq));
    }

    #[test]
    fn whole_records() {
        let watch = Record::watch(&Sample::default().to_bytes()).to_bytes();
        let bytes = [&[3][..], &watch, &watch].concat();
        for len in 0..=bytes.len() {
            let due = match len {
                0 => 0,
                1..143 => 1,
                143..285 => 143,
                _ => 285,
            };
            assert_eq!(whole_len(&bytes[..len]), due);
        }
        assert_eq!(whole_len(&[0]), 1);
        assert_eq!(whole_len(&[4, 3]), 1);
    }
}

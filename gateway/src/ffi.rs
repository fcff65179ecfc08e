//! The unit's calls and the sample's wire form, on slices; the pair census, the angle tables and the
//! count of chance falls. All unsafe code of this crate is here.

use crate::census::Census;
use crate::chance::COUNTS;
use crate::settings::Falls;
use crate::tables::{COARSE_ENTRIES, FINE_ENTRIES};

/// What settings need.
#[repr(C)]
#[derive(Debug, Clone, Copy, PartialEq, Eq)]
pub struct MemoryLen {
    pub refusal: u8,
    pub len: usize,
}

/// What a run returns.
#[repr(C)]
#[derive(Debug, Clone, Copy, PartialEq, Eq)]
pub struct Ran {
    pub refusal: u8,
    pub need: usize,
    pub answers: usize,
    pub used: usize,
}

/// What encoding returns.
#[repr(C)]
#[derive(Debug, Clone, Copy, PartialEq, Eq)]
pub struct Encoded {
    pub refusal: u64,
    pub bytes: u64,
}

/// The settings of falls, as the library takes them.
#[repr(C)]
#[derive(Debug, Clone, Copy, PartialEq, Eq)]
pub struct FallConfig {
    pub active_permille: u16,
    pub burst_permille: u16,
    pub still_permille: u16,
    pub min_active: u64,
    pub quiet_grace: u64,
    pub settle: u64,
    pub still_for: u64,
    pub refractory: u64,
}

/// What the count of chance falls returns.
#[repr(C)]
#[derive(Debug, Clone, Copy, PartialEq, Eq)]
pub struct Chances {
    pub refusal: u8,
    pub counts: [u64; COUNTS],
}

/// The numbers before the I/Q bytes of a sample.
#[derive(Debug, Clone, Copy, PartialEq, Eq, Default)]
pub struct Header {
    pub at: u64,
    pub rssi: i8,
    pub channel: u8,
    pub layout: u8,
}

// SAFETY: these are the signatures of the library, as include/volkjarp.h and crates/csi_stream_c
// have them; the structs are above, that of the census in census.rs.
unsafe extern "C" {
    fn room_memory_len(settings: *const u8, settings_len: usize) -> MemoryLen;
    fn room_begin(
        settings: *const u8,
        settings_len: usize,
        memory: *mut u8,
        memory_len: usize,
    ) -> u8;
    fn room_run(
        memory: *mut u8,
        memory_len: usize,
        records: *const u8,
        records_len: usize,
        answers: *mut u8,
        answers_len: usize,
    ) -> Ran;
    fn csi_decode(
        bytes: *const u8,
        bytes_len: usize,
        at: &mut u64,
        rssi: &mut i8,
        channel: &mut u8,
        layout: &mut u8,
        len: &mut u8,
    ) -> u64;
    fn csi_encode(
        at: u64,
        rssi: i8,
        channel: u8,
        layout: u8,
        iq: *const u8,
        iq_len: usize,
        out: *mut u8,
        out_len: usize,
    ) -> Encoded;
    fn census_count() -> Census;
    fn tables_atan_256(out: &mut [u16; COARSE_ENTRIES]);
    fn tables_atan_1024(out: &mut [u16; FINE_ENTRIES]);
    fn tables_sine_256(out: &mut [u16; COARSE_ENTRIES]);
    fn tables_sine_1024(out: &mut [u16; FINE_ENTRIES]);
    fn chance_count(
        config: FallConfig,
        choices: *const u16,
        choices_len: usize,
        spacing: u64,
        n: u64,
    ) -> Chances;
}

/// The length of memory that these settings need, or the refusal.
pub fn memory_len(settings: &[u8]) -> MemoryLen {
    // SAFETY: the pointer is a slice's, so not null even if the slice is empty; the call only reads,
    // only within the length, and keeps nothing.
    unsafe { room_memory_len(settings.as_ptr(), settings.len()) }
}

/// A beginning: the refusal, or 0.
pub fn begin(settings: &[u8], memory: &mut [u8]) -> u8 {
    // SAFETY: both pointers are slices' and not null. The borrows say that the memory is ours alone
    // and apart from the settings. The call reads and writes within the lengths and keeps nothing;
    // any bytes may stand in the memory.
    unsafe {
        room_begin(
            settings.as_ptr(),
            settings.len(),
            memory.as_mut_ptr(),
            memory.len(),
        )
    }
}

/// A run over records, with space for answers.
pub fn run(memory: &mut [u8], records: &[u8], answers: &mut [u8]) -> Ran {
    // SAFETY: all three pointers are slices' and not null. The borrows say that memory and answers
    // are ours alone and that no two of the three overlap. The call reads and writes within the
    // lengths, whatever bytes they hold, and keeps nothing.
    unsafe {
        room_run(
            memory.as_mut_ptr(),
            memory.len(),
            records.as_ptr(),
            records.len(),
            answers.as_mut_ptr(),
            answers.len(),
        )
    }
}

/// The numbers before the I/Q bytes, which are all behind them; or the refusal.
pub fn decode(bytes: &[u8]) -> Result<Header, u64> {
    let mut h = Header::default();
    let mut iq_len = 0;
    // SAFETY: the pointer is a slice's and not null; the call reads within the length. The five
    // references are to numbers apart from each other. It keeps nothing.
    let refusal = unsafe {
        csi_decode(
            bytes.as_ptr(),
            bytes.len(),
            &mut h.at,
            &mut h.rssi,
            &mut h.channel,
            &mut h.layout,
            &mut iq_len,
        )
    };
    if refusal == 0 { Ok(h) } else { Err(refusal) }
}

/// Writes a sample to the front of `out`.
pub fn encode(h: &Header, iq: &[u8], out: &mut [u8]) -> Encoded {
    // SAFETY: both pointers are slices' and not null. The borrows say that `out` is ours alone and
    // apart from the I/Q bytes. The call reads and writes within the lengths and keeps nothing.
    unsafe {
        csi_encode(
            h.at,
            h.rssi,
            h.channel,
            h.layout,
            iq.as_ptr(),
            iq.len(),
            out.as_mut_ptr(),
            out.len(),
        )
    }
}

/// The count of all pairs.
pub fn census() -> Census {
    // SAFETY: the call is lent nothing and has no state; it returns plain numbers by value.
    unsafe { census_count() }
}

/// A table, made in an array of its own.
fn table<const N: usize>(make: unsafe extern "C" fn(&mut [u16; N])) -> [u16; N] {
    let mut out = [0; N];
    // SAFETY: `make` is one of the four calls above, each of which writes the entries of the array
    // that it is lent and keeps nothing.
    unsafe { make(&mut out) };
    out
}

pub fn atan_256() -> [u16; COARSE_ENTRIES] {
    table(tables_atan_256)
}

pub fn atan_1024() -> [u16; FINE_ENTRIES] {
    table(tables_atan_1024)
}

pub fn sine_256() -> [u16; COARSE_ENTRIES] {
    table(tables_sine_256)
}

pub fn sine_1024() -> [u16; FINE_ENTRIES] {
    table(tables_sine_1024)
}

/// The counts of all sequences, or the refusal.
pub fn chances(falls: &Falls, choices: &[u16], spacing: u64, frames: u64) -> Chances {
    let config = FallConfig {
        active_permille: falls.active_permille,
        burst_permille: falls.burst_permille,
        still_permille: falls.still_permille,
        min_active: falls.min_active.0,
        quiet_grace: falls.quiet_grace.0,
        settle: falls.settle.0,
        still_for: falls.still_for.0,
        refractory: falls.refractory.0,
    };
    // SAFETY: the pointer is a slice's, so aligned and not null even if the slice is empty; the call
    // only reads, only within the length, and keeps nothing. All else goes by value.
    unsafe { chance_count(config, choices.as_ptr(), choices.len(), spacing, frames) }
}

#[cfg(test)]
mod tests {
    use super::*;
    use std::mem::{offset_of, size_of};

    #[test]
    fn structs_are_as_in_the_header() {
        let word = size_of::<usize>();
        assert_eq!(size_of::<MemoryLen>(), 2 * word);
        assert_eq!(offset_of!(MemoryLen, len), word);
        assert_eq!(size_of::<Ran>(), 4 * word);
        assert_eq!(offset_of!(Ran, need), word);
        assert_eq!(offset_of!(Ran, answers), 2 * word);
        assert_eq!(offset_of!(Ran, used), 3 * word);
        assert_eq!(size_of::<Encoded>(), 16);
        assert_eq!(offset_of!(Encoded, bytes), 8);
        assert_eq!(size_of::<Census>(), 2932);
        assert_eq!(offset_of!(Census, amplitude), 0);
        assert_eq!(offset_of!(Census, sector), 2900);
        assert_eq!(size_of::<FallConfig>(), 48);
        assert_eq!(offset_of!(FallConfig, active_permille), 0);
        assert_eq!(offset_of!(FallConfig, burst_permille), 2);
        assert_eq!(offset_of!(FallConfig, still_permille), 4);
        assert_eq!(offset_of!(FallConfig, min_active), 8);
        assert_eq!(offset_of!(FallConfig, quiet_grace), 16);
        assert_eq!(offset_of!(FallConfig, settle), 24);
        assert_eq!(offset_of!(FallConfig, still_for), 32);
        assert_eq!(offset_of!(FallConfig, refractory), 40);
        assert_eq!(size_of::<Chances>(), 208);
        assert_eq!(offset_of!(Chances, counts), 8);
    }

    #[test]
    fn empty_slices() {
        assert_eq!(memory_len(&[]), MemoryLen { refusal: 1, len: 0 });
        assert_eq!(begin(&[], &mut []), 1);
        assert_eq!(run(&mut [], &[], &mut []).refusal, 2);
        assert_eq!(decode(&[]), Err(3));
        let short = Encoded {
            refusal: 6,
            bytes: 13,
        };
        assert_eq!(encode(&Header::default(), &[], &mut []), short);
        assert_eq!(chances(&Falls::default(), &[], 0, 0).refusal, 13);
    }
}

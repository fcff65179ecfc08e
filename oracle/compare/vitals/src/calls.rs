//! The library's calls, and our estimator over them.

use oracle::frames::{self, COLUMNS};
use oracle::radar::vitals::{self, VitalsConfig};
use oracle::random::Random;

pub type Frame = frames::Frame<u16>;

#[repr(C)]
#[derive(Debug, Clone, Copy, PartialEq)]
pub struct Band {
    pub lo_mhz: u32,
    pub hi_mhz: u32,
}

#[repr(C)]
#[derive(Debug, Clone, Copy, PartialEq)]
pub struct Config {
    pub decim: u16,
    pub rate_hz: u32,
    pub band: Band,
    pub update_every: u16,
    pub accept_permille: u16,
    pub highpass: u16,
}

impl From<Band> for vitals::Band {
    fn from(b: Band) -> Self {
        vitals::Band {
            lo_mhz: b.lo_mhz,
            hi_mhz: b.hi_mhz,
        }
    }
}

impl From<Config> for VitalsConfig {
    fn from(c: Config) -> Self {
        VitalsConfig {
            decim: c.decim,
            rate_hz: c.rate_hz,
            band: c.band.into(),
            update_every: c.update_every,
            accept_permille: c.accept_permille,
            highpass: c.highpass,
        }
    }
}

#[repr(C)]
#[derive(Debug, PartialEq)]
pub struct Covered {
    pub refusal: u8,
    pub lo: usize,
    pub hi: usize,
}

#[repr(C)]
#[derive(Debug, Clone, Copy, PartialEq)]
pub struct State {
    pub count: usize,
    pub filled: usize,
    pub next: usize,
    pub acc_n: u32,
    pub since_update: u32,
    pub acc: [u32; COLUMNS],
}

pub const NEW: State = State {
    count: 0,
    filled: 0,
    next: 0,
    acc_n: 0,
    since_update: 0,
    acc: [0; COLUMNS],
};

#[repr(C)]
#[derive(Debug, PartialEq)]
pub struct Begun {
    pub refusal: u8,
    pub state: State,
}

#[repr(C)]
#[derive(Debug, Default, Clone, Copy, PartialEq)]
pub struct Vitals {
    pub bpm_x10: u16,
    pub confidence: u16,
    pub lag_x16: u32,
    pub accepted: bool,
    pub at: u64,
}

#[repr(C)]
#[derive(Debug, PartialEq)]
pub struct Pushed {
    pub refusal: u8,
    pub due: bool,
    pub vitals: Vitals,
    pub state: State,
}

unsafe extern "C" {
    fn vitals_lags(band: Band, rate_hz: u32) -> Covered;
    fn vitals_breathing(frame_hz: u32) -> Config;
    fn vitals_heart(frame_hz: u32) -> Config;
    fn vitals_new(rows: *const u8, rows_len: usize, n: usize, config: Config) -> Begun;
    fn vitals_reset(
        rows: *const u8,
        rows_len: usize,
        n: usize,
        config: Config,
        state: State,
    ) -> Begun;
    fn vitals_push(
        rows: *mut u8,
        rows_len: usize,
        n: usize,
        config: Config,
        state: State,
        frame: Frame,
    ) -> Pushed;
}

pub fn lags(band: Band, rate_hz: u32) -> Covered {
    unsafe { vitals_lags(band, rate_hz) }
}

pub fn breathing(frame_hz: u32) -> Config {
    unsafe { vitals_breathing(frame_hz) }
}

pub fn heart(frame_hz: u32) -> Config {
    unsafe { vitals_heart(frame_hz) }
}

/// Our estimator: its size, its settings, its memory and its state.
#[derive(Clone)]
pub struct Ours {
    pub n: usize,
    pub config: Config,
    pub rows: Vec<u8>,
    pub state: State,
}

impl Ours {
    /// A new one over memory of any content.
    pub fn new(random: &mut Random, n: usize, config: Config) -> Ours {
        let rows = random.bytes(2 * n * COLUMNS);
        let begun = begin(&rows, n, config);
        assert_eq!(begun.refusal, 0);
        let state = begun.state;
        Ours {
            n,
            config,
            rows,
            state,
        }
    }

    pub fn push(&mut self, frame: Frame) -> Pushed {
        let (rows, len) = (self.rows.as_mut_ptr(), self.rows.len());
        unsafe { vitals_push(rows, len, self.n, self.config, self.state, frame) }
    }

    pub fn reset(&self) -> Begun {
        let (rows, len) = (self.rows.as_ptr(), self.rows.len());
        unsafe { vitals_reset(rows, len, self.n, self.config, self.state) }
    }
}

pub fn begin(rows: &[u8], n: usize, config: Config) -> Begun {
    unsafe { vitals_new(rows.as_ptr(), rows.len(), n, config) }
}

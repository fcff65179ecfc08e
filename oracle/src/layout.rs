//! Settings and answers as bytes, low byte first, and the memory's length (docs/LAYOUT.md).

use rusty_esp_core::Micros;

use crate::radar::csi::{Config, MAX_SUBCARRIERS};
use crate::radar::fall::FallConfig;
use crate::radar::phase::PhaseConfig;
use crate::radar::vitals::{Band, Vitals, VitalsConfig};
use crate::room::Answer;
use crate::settings::{Settings, fall_config};

pub const SETTINGS_LEN: usize = 118;
pub const ANSWER_LEN: usize = 24;

/// The memory's bytes before the rows.
const MEMORY_HEADER: usize = 1994;

/// The length of memory that these settings need.
pub fn memory_len(settings: &Settings) -> usize {
    let rows = 2 * usize::from(settings.w) + 2 * usize::from(settings.n);
    MEMORY_HEADER + rows * 2 * MAX_SUBCARRIERS
}

pub fn settings_to_bytes(s: &Settings) -> Vec<u8> {
    let (presence, phase) = (&s.presence, &s.phase);
    let permille = [presence.on_permille, presence.off_permille];
    [
        [s.w, s.n].map(u16::to_le_bytes).concat(),
        permille.map(u16::to_le_bytes).concat(),
        presence.hold.0.to_le_bytes().to_vec(),
        [phase.on_ppm, phase.off_ppm].map(u32::to_le_bytes).concat(),
        phase.hold.0.to_le_bytes().to_vec(),
        rhythm_to_bytes(&s.breathing),
        rhythm_to_bytes(&s.heart),
        fall_to_bytes(&s.fall),
    ]
    .concat()
}

/// The settings of breathing or heart.
pub fn rhythm_to_bytes(c: &VitalsConfig) -> Vec<u8> {
    let rates = [c.rate_hz, c.band.lo_mhz, c.band.hi_mhz];
    let others = [c.update_every, c.accept_permille, c.highpass];
    [
        c.decim.to_le_bytes().to_vec(),
        rates.map(u32::to_le_bytes).concat(),
        others.map(u16::to_le_bytes).concat(),
    ]
    .concat()
}

/// The settings of falls.
pub fn fall_to_bytes(c: &FallConfig) -> Vec<u8> {
    let permille = [c.active_permille, c.burst_permille, c.still_permille];
    let times = [
        c.min_active,
        c.quiet_grace,
        c.settle,
        c.still_for,
        c.refractory,
    ];
    [
        permille.map(u16::to_le_bytes).concat(),
        times.map(|t| t.0.to_le_bytes()).concat(),
    ]
    .concat()
}

/// The settings that `bytes` hold, of any range; none if the length is wrong.
pub fn settings_from_bytes(bytes: &[u8]) -> Option<Settings> {
    if bytes.len() != SETTINGS_LEN {
        return None;
    }
    let mut b = Reader(bytes);
    // Fields are read in the order they are written here.
    Some(Settings {
        w: b.u16(),
        n: b.u16(),
        presence: Config {
            on_permille: b.u16(),
            off_permille: b.u16(),
            hold: b.micros(),
        },
        phase: PhaseConfig {
            on_ppm: b.u32(),
            off_ppm: b.u32(),
            hold: b.micros(),
        },
        breathing: b.rhythm(),
        heart: b.rhythm(),
        fall: fall_config([(); 3].map(|()| b.u16()), [(); 5].map(|()| b.micros())),
    })
}

struct Reader<'a>(&'a [u8]);

impl Reader<'_> {
    fn take<const K: usize>(&mut self) -> [u8; K] {
        let (front, rest) = self.0.split_at(K);
        self.0 = rest;
        front.try_into().unwrap()
    }

    fn u16(&mut self) -> u16 {
        u16::from_le_bytes(self.take())
    }

    fn u32(&mut self) -> u32 {
        u32::from_le_bytes(self.take())
    }

    fn micros(&mut self) -> Micros {
        Micros(u64::from_le_bytes(self.take()))
    }

    fn rhythm(&mut self) -> VitalsConfig {
        VitalsConfig {
            decim: self.u16(),
            rate_hz: self.u32(),
            band: Band {
                lo_mhz: self.u32(),
                hi_mhz: self.u32(),
            },
            update_every: self.u16(),
            accept_permille: self.u16(),
            highpass: self.u16(),
        }
    }
}

/// An answer: a kind, then what it says, then zeros.
pub fn answer_to_bytes(answer: &Answer) -> Vec<u8> {
    let mut out = Vec::with_capacity(ANSWER_LEN);
    match answer {
        Answer::Refused { number, at } => {
            out.extend([0, *number]);
            out.extend((*at as u64).to_le_bytes());
        }
        Answer::Watch(w) => {
            out.extend([1, w.verdict.tag(), w.verdict.motion()]);
            out.push(u8::from(w.fall.is_some()));
            out.extend(w.permille.to_le_bytes());
            out.extend(w.distance.to_le_bytes());
            out.extend(w.ppm.to_le_bytes());
            out.extend(rate(w.breathing));
            out.extend(rate(w.heart));
        }
        Answer::Calibrate { frames, mean } => {
            out.push(2);
            out.extend(frames.to_le_bytes());
            out.extend(mean.to_le_bytes());
        }
        Answer::Reset => out.push(3),
    }
    out.resize(ANSWER_LEN, 0);
    out
}

/// 0 not due, 1 not accepted, 2 accepted; then the rate, 0 unless accepted.
fn rate(estimate: Option<Vitals>) -> [u8; 3] {
    let (state, rate) = match estimate {
        None => (0, 0),
        Some(v) if v.accepted => (2, v.bpm_x10),
        Some(_) => (1, 0),
    };
    let [low, high] = rate.to_le_bytes();
    [state, low, high]
}

#[cfg(test)]
mod tests {
    use super::*;

    #[test]
    fn settings_come_back() {
        let bytes: Vec<u8> = (0..SETTINGS_LEN as u8).collect();
        let settings = settings_from_bytes(&bytes).unwrap();
        assert_eq!(settings_to_bytes(&settings), bytes);
        assert_eq!(settings_from_bytes(&bytes[1..]), None);
    }
}

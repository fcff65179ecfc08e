//! The settings of falls as the exported calls have them.

use rusty_esp_core::Micros;

use crate::radar::fall::FallConfig;

#[repr(C)]
#[derive(Debug, Clone, Copy)]
pub struct Config {
    pub active_permille: u16,
    pub burst_permille: u16,
    pub still_permille: u16,
    pub min_active: u64,
    pub quiet_grace: u64,
    pub settle: u64,
    pub still_for: u64,
    pub refractory: u64,
}

impl Config {
    pub fn rust(&self) -> FallConfig {
        FallConfig {
            active_permille: self.active_permille,
            burst_permille: self.burst_permille,
            still_permille: self.still_permille,
            min_active: Micros(self.min_active),
            quiet_grace: Micros(self.quiet_grace),
            settle: Micros(self.settle),
            still_for: Micros(self.still_for),
            refractory: Micros(self.refractory),
        }
    }

    pub fn of(c: &FallConfig) -> Config {
        Config {
            active_permille: c.active_permille,
            burst_permille: c.burst_permille,
            still_permille: c.still_permille,
            min_active: c.min_active.0,
            quiet_grace: c.quiet_grace.0,
            settle: c.settle.0,
            still_for: c.still_for.0,
            refractory: c.refractory.0,
        }
    }
}

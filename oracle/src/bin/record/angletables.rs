//! The program reads nothing. Its lines are `atan 256 PLACE ENTRY` for places from 0 to 256, then the same of `atan 1024`, of
//! `sine 256` and of `sine 1024`. The entries are the whole numbers nearest the true values.

use oracle::tables::lines;

use super::Recorded;

pub fn recorded() -> Recorded {
    Recorded {
        stdin: Vec::new(),
        stdout: lines(),
    }
}

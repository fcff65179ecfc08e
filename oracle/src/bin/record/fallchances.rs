//! The program reads nothing. With the default settings and the values 30, 31, 32 and 232 one second apart, its lines are
//! `frames N events K count C of T fraction A/B probability P` for N from 0 to 24, and each K that at least one of the T
//! sequences gives. The fraction is in lowest terms; the probability has twelve decimal places, rounded down.

use oracle::chance::lines;

use super::Recorded;

pub fn recorded() -> Recorded {
    Recorded {
        stdin: Vec::new(),
        stdout: lines(),
    }
}

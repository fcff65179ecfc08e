//! The program reads nothing. Its lines are `amplitude K PAIRS` for K from 0 to 724, then `sector K PAIRS` for K from 0 to 7.

use oracle::census::{Census, count};

use super::Recorded;

pub fn recorded() -> Recorded {
    let Census { amplitude, sector } = count();
    Recorded {
        stdin: Vec::new(),
        stdout: lines("amplitude", &amplitude) + &lines("sector", &sector),
    }
}

fn lines(list: &str, counts: &[u32]) -> String {
    let line = |(k, pairs)| format!("{list} {k} {pairs}\n");
    counts.iter().enumerate().map(line).collect()
}

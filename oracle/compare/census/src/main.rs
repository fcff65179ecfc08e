//! The pair census against the Rust: `compare_census`. Nothing in it is random. A second call must answer as the first.

use std::hint::black_box;
use std::process::ExitCode;

use oracle::census::{Census, count};
use oracle::differ::{self, Differ};
use oracle::timer::ratio;

unsafe extern "C" {
    fn census_count() -> Census;
}

fn count_ours() -> Census {
    unsafe { census_count() }
}

/// Each number of both lists is one input.
fn compare_call(differ: &mut Differ, call: u8, rust: &Census) {
    let ours = count_ours();
    for (k, (rust, ours)) in rust.amplitude.iter().zip(&ours.amplitude).enumerate() {
        differ.compare(&("call", call, "amplitude", k), rust, ours);
    }
    for (k, (rust, ours)) in rust.sector.iter().zip(&ours.sector).enumerate() {
        differ.compare(&("call", call, "sector", k), rust, ours);
    }
}

/// Prints the time of a call as a ratio to the Rust's, the same pairs in one plain loop.
fn measure() {
    let rust = || {
        black_box(count());
    };
    let ours = || {
        black_box(count_ours());
    };
    println!("all pairs: {}", ratio(201, rust, ours));
}

fn main() -> ExitCode {
    differ::compare("census", |differ, _| {
        let rust = count();
        for call in 1..=2 {
            compare_call(differ, call, &rust);
        }
        measure();
    })
}

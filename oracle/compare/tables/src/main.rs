//! The angle tables against the true values and the Rust's constant tables: `compare_tables`. Nothing in it is random.

use std::hint::black_box;
use std::process::ExitCode;

use oracle::differ::{self, Differ};
use oracle::tables::{RULE, STEPS, Table, Unrounded, tables};
use oracle::timer::ratio;

type Call = unsafe extern "C" fn(*mut u16);

unsafe extern "C" {
    fn tables_atan_256(out: *mut u16);
    fn tables_atan_1024(out: *mut u16);
    fn tables_sine_256(out: *mut u16);
    fn tables_sine_1024(out: *mut u16);
}

/// In the order of `tables`.
const CALLS: [Call; 4] = [
    tables_atan_256,
    tables_atan_1024,
    tables_sine_256,
    tables_sine_1024,
];

/// What the lent array holds before a call. The second is no entry, so one that is not written is seen.
const GARBAGE: [u16; 2] = [0x1555, 0xaaaa];

/// So much garbage stands before the lent array and behind it, and must stay.
const GUARD: usize = 1_024;

fn compare_call(differ: &mut Differ, (table, n): (Table, u64), call: Call, garbage: u16) {
    let mut memory = vec![garbage; GUARD + n as usize + 1 + GUARD];
    unsafe { call(memory[GUARD..].as_mut_ptr()) };
    let (before, rest) = memory.split_at(GUARD);
    let (entries, behind) = rest.split_at(n as usize + 1);
    let input = (table.name, n, "on", garbage);
    let changed = [before, behind].map(|guard| guard.iter().filter(|g| **g != garbage).count());
    differ.compare(&(input, "changed outside"), &[0, 0], &changed);
    for (i, (nearest, ours)) in table.nearest(n).iter().zip(entries).enumerate() {
        differ.compare(&(input, "nearest", i), nearest, ours);
        if let Some(constant) = table.constant(i as u64, n) {
            differ.compare(&(input, "constant", i), &constant, ours);
        }
    }
}

/// Prints the time of a call at the most steps as a ratio to that of the same rule in plain Rust.
fn measure(name: &str, entry: impl Fn(u64, u64) -> Unrounded, call: Call) {
    const N: u64 = STEPS[1];
    let mut out = [0; N as usize + 1];
    let rust = || {
        let entries = (0..=N).map(|i| entry(i, N).nearest() as u16);
        black_box(entries.collect::<Vec<u16>>());
    };
    let ours = || {
        unsafe { call(out.as_mut_ptr()) };
        black_box(&out);
    };
    println!("{name} {N}: {}", ratio(1_001, rust, ours));
}

fn main() -> ExitCode {
    differ::compare("tables", |differ, _| {
        for (table, call) in tables().into_iter().zip(CALLS) {
            for garbage in GARBAGE {
                compare_call(differ, table, call, garbage);
            }
        }
        measure("atan", |i, n| RULE.atan(i, n), tables_atan_1024);
        measure("sine", |i, n| RULE.sine(i, n), tables_sine_1024);
    })
}

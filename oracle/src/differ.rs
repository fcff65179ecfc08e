//! Counts inputs and the differences of two answers to them.

use std::fmt::Debug;
use std::process::ExitCode;

use crate::argument;
use crate::random::Random;

/// A driver's work: its random inputs come from the first word of the command line, or else from 1.
pub fn compare(subject: &'static str, work: impl FnOnce(&mut Differ, &mut Random)) -> ExitCode {
    let seed = argument(1, 1);
    let mut differ = Differ::new(subject, seed);
    work(&mut differ, &mut Random::new(seed));
    differ.finish()
}

pub struct Differ {
    subject: &'static str,
    seed: u64,
    inputs: u64,
    differences: u64,
}

impl Differ {
    /// A differ for `subject`, whose random inputs come from `seed`.
    pub fn new(subject: &'static str, seed: u64) -> Self {
        Differ {
            subject,
            seed,
            inputs: 0,
            differences: 0,
        }
    }

    /// Counts one input. The first one with a difference is printed.
    pub fn compare<T: PartialEq + Debug>(&mut self, input: &dyn Debug, rust: &T, ours: &T) {
        self.inputs += 1;
        if rust == ours {
            return;
        }
        self.differences += 1;
        if self.differences == 1 {
            println!(
                "{}: seed {}, input {}",
                self.subject, self.seed, self.inputs
            );
            println!("  input {input:?}\n  rust  {rust:?}\n  ours  {ours:?}");
        }
    }

    /// Prints both counts; a failure unless nothing differed, and if nothing was compared.
    pub fn finish(&self) -> ExitCode {
        println!(
            "{}: {} inputs, {} differences",
            self.subject, self.inputs, self.differences
        );
        match (self.inputs, self.differences) {
            (1.., 0) => ExitCode::SUCCESS,
            _ => ExitCode::FAILURE,
        }
    }
}

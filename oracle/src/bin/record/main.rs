//! Writes the recorded inputs and answers of a subject: `record SUBJECT [FOLDER OF THE CRATES]`.
//! The subject's program reads its file stdin and must print its file stdout, the Rust's answers.

mod angletables;
mod chance;
mod csi;
mod csi_stream;
mod detector;
mod fall;
mod fallchances;
mod fingerprint;
mod paircensus;
mod phase;
mod phase_detector;
mod presence;
mod vitals;

use std::path::PathBuf;
use std::process::exit;
use std::{env, fs, io};

use oracle::{lines, streams};

/// What a program reads, and what it must print.
struct Recorded {
    stdin: Vec<u8>,
    stdout: String,
}

/// The program's crate and its inputs and answers, none for a subject that there is not.
fn record(subject: &str) -> Option<(&'static str, Recorded)> {
    Some(match subject {
        "chance" => ("chance_cases", chance::cases().into()),
        "csi" => ("csi_cases", csi::cases().into()),
        "csi_stream" => ("csi_stream_cases", csi_stream::cases().into()),
        "fall" => ("fall_cases", fall::cases().into()),
        "fingerprint" => ("fingerprint_cases", fingerprint::cases().into()),
        "phase" => ("phase_cases", phase::cases().into()),
        "phase_detector" => ("phase_detector_cases", phase_detector::cases().into()),
        "presence" => ("presence_cases", presence::cases().into()),
        "vitals" => ("vitals_cases", vitals::cases().into()),
        "angletables" => ("angletables", angletables::recorded()),
        "fallchances" => ("fallchances", fallchances::recorded()),
        "paircensus" => ("paircensus", paircensus::recorded()),
        "roomlines" => ("roomlines", roomlines()),
        _ => return None,
    })
}

fn roomlines() -> Recorded {
    let stdin = streams::recorded();
    let stdout = lines::lines(&stdin);
    Recorded { stdin, stdout }
}

/// Cases: an input is its length in two bytes (low byte first) and its bytes; an answer is a line.
#[derive(Default)]
struct Cases {
    inputs: Vec<u8>,
    answers: String,
}

impl Cases {
    fn add(&mut self, input: &[u8], answer: &str) {
        let length = u16::try_from(input.len()).expect("an input is shorter than 65,536 bytes");
        self.inputs.extend(length.to_le_bytes());
        self.inputs.extend(input);
        self.answers += answer;
        self.answers.push('\n');
    }
}

impl From<Cases> for Recorded {
    fn from(cases: Cases) -> Self {
        Recorded {
            stdin: cases.inputs,
            stdout: cases.answers,
        }
    }
}

fn main() -> io::Result<()> {
    let subject = env::args().nth(1).unwrap_or_default();
    let Some((program, recorded)) = record(&subject) else {
        eprintln!("there is no subject `{subject}`");
        exit(2);
    };
    let crates = env::args_os().nth(2).map_or_else(
        || PathBuf::from(env!("CARGO_MANIFEST_DIR")).join("../crates"),
        PathBuf::from,
    );
    let folder = crates.join(program);
    fs::create_dir_all(&folder)?;
    fs::write(folder.join("stdin"), &recorded.stdin)?;
    fs::write(folder.join("stdout"), &recorded.stdout)?;
    let lines = recorded.stdout.lines().count();
    println!("{program}: {} bytes, {lines} lines", recorded.stdin.len());
    Ok(())
}

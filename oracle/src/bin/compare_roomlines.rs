//! The program roomlines against the Rust: `compare_roomlines [seed] [records]`. It is fed the streams
//! made on purpose and then random ones, until it has had so many records. The program is
//! ../crates/roomlines/out/roomlines, or the one that VOLKJARP_ROOMLINES names.

use std::io::{self, Read, Write};
use std::path::PathBuf;
use std::process::{Command, ExitCode, Stdio};
use std::{env, thread};

use oracle::argument;
use oracle::differ::Differ;
use oracle::lines::lines;
use oracle::random::Random;
use oracle::streams;

/// What the program prints for a stream that reaches it in pieces of random size.
fn printed(program: &PathBuf, stream: &[u8], random: &mut Random) -> io::Result<String> {
    let mut child = Command::new(program)
        .stdin(Stdio::piped())
        .stdout(Stdio::piped())
        .spawn()?;
    let (mut input, mut output) = (child.stdin.take().unwrap(), child.stdout.take().unwrap());
    let reader = thread::spawn(move || {
        let mut bytes = Vec::new();
        output.read_to_end(&mut bytes).map(|_| bytes)
    });
    let mut rest = stream;
    let most = random.pick(&[150, 5_000, 100_000]);
    while !rest.is_empty() {
        let length = random.between(1, most).min(rest.len() as u64) as usize;
        let (piece, behind) = rest.split_at(length);
        rest = behind;
        // A program that has met the end of its stream may have left.
        if input.write_all(piece).is_err() {
            break;
        }
    }
    drop(input);
    let bytes = reader.join().unwrap()?;
    child.wait()?;
    Ok(String::from_utf8_lossy(&bytes).into_owned())
}

fn main() -> io::Result<ExitCode> {
    let program = env::var_os("VOLKJARP_ROOMLINES").map_or_else(
        || PathBuf::from(env!("CARGO_MANIFEST_DIR")).join("../crates/roomlines/out/roomlines"),
        PathBuf::from,
    );
    let (seed, records) = (argument(1, 1), argument(2, 500_000));
    let random = &mut Random::new(seed);
    let differ = &mut Differ::new("roomlines", seed);
    let mut scripted = streams::scripted().into_iter();
    let (mut streams, mut compared) = (0, 0);
    while let Some(stream) = scripted
        .next()
        .or_else(|| (compared < records).then(|| streams::stream(random, 2000)))
    {
        let (rust, ours) = (lines(&stream), printed(&program, &stream, random)?);
        // Line by line, so that a difference shows as its line.
        let rust: Vec<&str> = rust.split_inclusive('\n').collect();
        let ours: Vec<&str> = ours.split_inclusive('\n').collect();
        for k in 0..rust.len().max(ours.len()) {
            differ.compare(&(streams, k), &rust.get(k), &ours.get(k));
        }
        streams += 1;
        compared += rust.len() as u64;
    }
    println!("roomlines: {compared} records in {streams} streams");
    Ok(differ.finish())
}

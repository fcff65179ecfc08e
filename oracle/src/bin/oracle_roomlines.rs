//! Reads a stream of records from standard input and prints the Rust's answers, a line each.

use std::io::{self, Read, Write};

use oracle::lines::lines;

fn main() -> io::Result<()> {
    let mut stream = Vec::new();
    io::stdin().read_to_end(&mut stream)?;
    io::stdout().write_all(lines(&stream).as_bytes())
}

//! The lines of a stream, as the program roomlines prints them:
//! `cargo run --example lines < ../samples/room.stream`

use std::error::Error;
use std::io::{self, Read, Write};

use volkjarp::{Room, Settings};

fn main() -> Result<(), Box<dyn Error>> {
    let mut stream = Vec::new();
    io::stdin().read_to_end(&mut stream)?;
    let mut out = io::stdout().lock();
    for answer in Room::new(&Settings::new(50))?.run(&stream) {
        writeln!(out, "{answer}")?;
    }
    Ok(())
}

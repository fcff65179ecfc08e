//! A gateway's loop that survives a restart: records arrive in pieces, each is answered with a line,
//! and the room is saved to a file, from which the next start goes on. A refused record's position is
//! that in the bytes which are not answered yet.
//! `cargo run --example live -- room.memory < ../samples/room.stream`

use std::error::Error;
use std::io::{self, ErrorKind, Read, Write};
use std::path::{Path, PathBuf};
use std::{env, fs};

use volkjarp::{Answer, Refusal, Room, Settings};

/// Answers from one save to the next.
const SAVE_EVERY: usize = 250;

fn main() -> Result<(), Box<dyn Error>> {
    let file = env::args_os().nth(1).map(PathBuf::from);
    let file = file.ok_or("give the file that the room is saved to")?;
    let mut room = open(&file, &Settings::new(50))?;
    let (mut stream, mut piece) = (Vec::new(), [0; 4096]);
    let mut unsaved = 0;
    loop {
        let len = io::stdin().read(&mut piece)?;
        stream.extend_from_slice(&piece[..len]);
        let answers = room.feed(&mut stream).answers;
        print(&answers)?;
        let ended = len == 0 || answers.last().is_some_and(is_lost);
        unsaved += answers.len();
        if ended || unsaved >= SAVE_EVERY {
            save(&room, &file)?;
            unsaved = 0;
        }
        if ended {
            return Ok(());
        }
    }
}

/// The room as it was saved; a new one where there is none, it is damaged or has other settings.
fn open(file: &Path, settings: &Settings) -> Result<Room, Box<dyn Error>> {
    let saved = match fs::read(file) {
        Err(error) if error.kind() == ErrorKind::NotFound => return Ok(Room::new(settings)?),
        saved => Room::from_memory(saved?),
    };
    match saved {
        Ok(room) if room.has_settings(settings) => return Ok(room),
        Ok(_) => eprintln!("{} has other settings: begun anew", file.display()),
        Err(refusal) => eprintln!("{}: {refusal}: begun anew", file.display()),
    }
    Ok(Room::new(settings)?)
}

/// Written beside the file and then put in its place, so that a crash leaves the old or the new.
fn save(room: &Room, file: &Path) -> io::Result<()> {
    let mut beside = file.as_os_str().to_owned();
    beside.push(".new");
    fs::write(&beside, room.memory())?;
    fs::rename(&beside, file)
}

fn print(answers: &[Answer]) -> io::Result<()> {
    let mut out = io::stdout().lock();
    for answer in answers {
        writeln!(out, "{answer}")?;
    }
    out.flush()
}

/// Whether no record can be told any more: behind an unknown kind the stream has to begin anew.
fn is_lost(answer: &Answer) -> bool {
    let unknown = Refusal::Record;
    matches!(answer, Answer::Refused { number, .. } if *number == unknown)
}
